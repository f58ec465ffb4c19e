# ADS metafiles: build, try, install. Needs GNU make, gcc with GNU ld, and python3; to build the library from nothing also
# rt.
#
#   make            the static library, proved, target/staticlib/libads.a, and the shared one, target/lib/libads.so.0
#   make shared     the shared library alone, from the static one that is there; nothing is proved
#   make demo       builds, then lists a sample file with the command
#   make test       the gate, .ci/run
#   make install    header, libraries, ads.pc, Python package, command `ads` and man page; proves nothing
#   make uninstall  removes the files that install wrote, given the same variables; folders shared with others stay
#   make clean      removes the shared library
#
# Variables: PREFIX=/usr/local; DESTDIR=, a folder that stands before every path that is written to, and in no file;
# PYTHONDIR=PREFIX/lib/python3.N/site-packages, N that of PYTHON=python3; CC=gcc; LDFLAGS=. PREFIX and PYTHONDIR are
# absolute. Names with spaces are taken; a dollar sign, a backslash, a quote or a bar in a name is not. Nothing else is
# written, not the loader's cache: programs find the shared library after ldconfig, or by LD_LIBRARY_PATH.

.ONESHELL:
.DELETE_ON_ERROR:
.SHELLFLAGS := -euc
.PHONY: all static shared demo test install uninstall clean help

export PREFIX ?= /usr/local
export DESTDIR ?=
export PYTHONDIR ?=
PYTHON ?= python3
ifeq ($(origin CC),default)
CC := gcc
endif

VERSION := $(shell sed -n 's/^#define ADS_VERSION "\(.*\)"/\1/p' include/ads.h)
SONAME := libads.so.$(firstword $(subst ., ,$(VERSION)))
# the version nodes of the symbols; ads_read has a newer one, since it writes more of a row, and the old one for programs
# that were linked before; the relations, the price, the ancestors and the blocks have the ones with which they came
NODE := ADS_0.2
NODE_READ := ADS_0.4
NODE_RELATIONS := ADS_0.6
NODE_LATEST := ADS_0.7
NODE_PRICE := ADS_0.8
NODE_ANCESTORS := ADS_0.9
NODE_BLOCKS := ADS_0.10
ARCHIVE := target/staticlib/libads.a
BUILT := target/lib
REAL := libads.so.$(VERSION)
PACKAGE = $(shell cd python && find ads_metafile -type f ! -name '*.pyc' | LC_ALL=C sort)

# ---- build

all: static
	@$(MAKE) --no-print-directory shared

# The archive is up to date where no source is newer.
static:
	@if [ -e $(ARCHIVE) ] && [ -z "$$(find crates.txt crates -name out -prune -o -newer $(ARCHIVE) \
	    \( -name crates.txt -o -name '*.rt' -o -name '*.antt' \) -print -quit)" ]; then
	    exit 0
	fi
	command -v rt > /dev/null || { echo "make: rt, which proves and builds the library, isn't installed" >&2; exit 1; }
	tools/staticlib ads
	touch $(ARCHIVE)

shared: $(BUILT)/$(REAL) $(BUILT)/$(SONAME) $(BUILT)/libads.so
	@:

$(ARCHIVE):
	@echo "make: there is no $@; 'make' proves and builds it" >&2
	exit 1

$(BUILT)/$(REAL): $(ARCHIVE) include/ads.h Makefile
	mkdir -p $(BUILT)
	echo '$(NODE) { global: ads_*; local: *; }; $(NODE_READ) { global: ads_read; } $(NODE);' \
	    '$(NODE_RELATIONS) { global: ads_relations_write; ads_relations_check; } $(NODE_READ);' \
	    '$(NODE_LATEST) { global: ads_relations_check_latest; } $(NODE_RELATIONS);' \
	    '$(NODE_PRICE) { global: ads_price; } $(NODE_LATEST);' \
	    '$(NODE_ANCESTORS) { global: ads_ancestors; } $(NODE_PRICE);' \
	    '$(NODE_BLOCKS) { global: ads_pack; ads_unpack; } $(NODE_ANCESTORS);' > $(BUILT)/ads.map
	$(CC) -shared -fuse-ld=bfd $(LDFLAGS) -Wl,-soname,$(SONAME) -Wl,--version-script=$(BUILT)/ads.map \
	    '-Wl,--defsym="ads_read@$(NODE)"=ads_read' \
	    -Wl,-z,defs -Wl,-z,relro -Wl,-z,now -Wl,-z,noexecstack \
	    -Wl,--whole-archive $(ARCHIVE) -Wl,--no-whole-archive -o $@.new
	mv -f $@.new $@

$(BUILT)/$(SONAME) $(BUILT)/libads.so: $(BUILT)/$(REAL)
	@ln -f $(BUILT)/$(REAL) $@

# ---- try

demo: all
	PYTHONPATH=python $(PYTHON) -m ads_metafile list samples/one-chunk.ads

test:
	.ci/run

# ---- install

# Where things go, as variables of the shell: the prefix and the package's folder, behind DESTDIR.
define PLACES
case $$PREFIX in /*) ;; *) echo "make: PREFIX must be an absolute path, is '$$PREFIX'" >&2; exit 1 ;; esac
case $$PYTHONDIR in
'') number=$$($(PYTHON) -I -c 'import sys; print("%d.%d" % sys.version_info[:2])')
    modules=$$DESTDIR$$PREFIX/lib/python$$number/site-packages ;;
/*) modules=$$DESTDIR$$PYTHONDIR ;;
*)  echo "make: PYTHONDIR must be an absolute path, is '$$PYTHONDIR'" >&2; exit 1 ;;
esac
root=$$DESTDIR$$PREFIX
package=$$modules/ads_metafile
endef

install: shared include/ads.h ads.pc.in man/ads.1 python/bin/ads
	@$(PLACES)
	umask 022
	mkdir -p "$$root/include" "$$root/lib/pkgconfig" "$$root/bin" "$$root/share/man/man1"
	install -m 644 include/ads.h "$$root/include/ads.h"
	install -m 644 $(ARCHIVE) "$$root/lib/libads.a"
	install -m 755 $(BUILT)/$(REAL) "$$root/lib/$(REAL)"
	ln -sfn $(REAL) "$$root/lib/$(SONAME)"
	ln -sfn $(REAL) "$$root/lib/libads.so"
	printf 'prefix=%s\nversion=%s\n' "$$PREFIX" $(VERSION) | cat - ads.pc.in |
	    install -m 644 /dev/stdin "$$root/lib/pkgconfig/ads.pc"
	install -m 644 man/ads.1 "$$root/share/man/man1/ads.1"
	for file in $(PACKAGE); do install -D -m 644 "python/$$file" "$$modules/$$file"; done
	ln -sfn "$$(realpath -ms --relative-to="$$package" "$$root/lib/$(SONAME)")" "$$package/$(SONAME)"
	$(PYTHON) -I -m compileall -q -s "$$DESTDIR" -p / "$$package"
	relative=$$(realpath -ms --relative-to="$$root" "$$modules")
	sed "s|^installed = .*|installed = os.path.join(above, \"$$relative\")|" python/bin/ads |
	    install -m 755 /dev/stdin "$$root/bin/ads"
	echo "installed: $$root/bin/ads, $$root/lib/$(REAL), $$package"

uninstall:
	@$(PLACES)
	rm -f "$$root/include/ads.h" "$$root/lib/libads.a" "$$root/lib/$(REAL)" "$$root/lib/$(SONAME)" \
	    "$$root/lib/libads.so" "$$root/lib/pkgconfig/ads.pc" "$$root/share/man/man1/ads.1" "$$root/bin/ads" \
	    "$$package/$(SONAME)"
	for file in $(PACKAGE); do
	    compiled=$$modules/$${file%/*}/__pycache__/$$(basename "$$file" .py)
	    rm -f "$$modules/$$file" "$$compiled".*.pyc
	done
	if [ -d "$$package" ]; then find "$$package" -depth -type d -empty -delete; fi

clean:
	rm -f $(BUILT)/$(REAL) $(BUILT)/$(SONAME) $(BUILT)/libads.so $(BUILT)/ads.map
	if [ -d $(BUILT) ]; then rmdir --ignore-fail-on-non-empty $(BUILT); fi

help:
	@sed -n '/^#/!q; s/^# \{0,1\}//p' Makefile
