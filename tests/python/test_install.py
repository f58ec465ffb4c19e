"""`make`, `make install` and `make uninstall`: what is written, that it works by itself, that nothing else is touched.

Everything is done in a temporary folder, from a copy of the files that install takes, with the libraries of this
checkout's target folder.
"""
from __future__ import annotations

import os
import re
import shlex
import shutil
import subprocess
import sys
import tempfile
import unittest
from pathlib import Path
from string import Template

ROOT = Path(__file__).resolve().parents[2]
MODULES = "lib/python%d.%d/site-packages" % sys.version_info[:2]
HEADER = (ROOT / "include/ads.h").read_text(encoding="utf-8")
(VERSION,) = re.findall(r'^#define ADS_VERSION "(.*)"$', HEADER, re.MULTILINE)

State = dict[str, tuple[int, int, bytes]]


def state(folder: Path) -> State:
    """Every file and link below a folder with its size, time and bytes; folders by their names."""
    found: State = {}
    for path in sorted(folder.rglob("*")):
        stat = path.lstat()
        data = os.readlink(path).encode() if path.is_symlink() else path.read_bytes() if path.is_file() else b""
        found[str(path.relative_to(folder))] = (stat.st_size, stat.st_mtime_ns, data) if data else (0, 0, b"")
    return found


def files(folder: Path) -> set[str]:
    """Files and links below a folder, without what Python compiled."""
    paths = (path for path in folder.rglob("*") if path.is_symlink() or path.is_file())
    return {str(path.relative_to(folder)) for path in paths if path.suffix != ".pyc"}


def expected() -> set[str]:
    """What an installation has, below its prefix."""
    package = {f"{MODULES}/{name}" for name in files(ROOT / "python") if name.startswith("ads_metafile/")}
    libraries = {f"lib/libads.{end}" for end in ("a", "so", "so.0", f"so.{VERSION}")}
    return package | libraries | {"include/ads.h", "lib/pkgconfig/ads.pc", "bin/ads", "share/man/man1/ads.1",
                                  f"{MODULES}/ads_metafile/libads.so.0"}


class Case(unittest.TestCase):
    """A temporary folder with a checkout, an empty home and an empty folder for temporary files."""

    def setUp(self) -> None:
        made = tempfile.TemporaryDirectory(prefix="ads install ä ")
        self.addCleanup(made.cleanup)
        self.folder = Path(made.name).resolve()
        self.checkout = self.folder / "checkout"
        for name in ("checkout", "home", "tmp"):
            (self.folder / name).mkdir()
        for name in ("ads.pc.in", "Makefile"):
            shutil.copy2(ROOT / name, self.checkout / name)
        for name in ("include", "man", "python", "samples", "tools", "target/lib", "target/staticlib"):
            without = shutil.ignore_patterns("__pycache__", "libkernels.a")
            shutil.copytree(ROOT / name, self.checkout / name, symlinks=True, ignore=without)
        self.make("shared")

    def environment(self, **more: str) -> dict[str, str]:
        path = f"{Path(sys.executable).parent}:{os.environ['PATH']}"
        return {"PATH": path, "HOME": str(self.folder / "home"), "TMPDIR": str(self.folder / "tmp"), **more}

    def run_quietly(self, *command: str | Path, check: bool = True, folder: Path | None = None,
                    **more: str) -> subprocess.CompletedProcess[str]:
        done = subprocess.run(command, cwd=folder or self.checkout, env=self.environment(**more),
                              capture_output=True, text=True)
        if check and done.returncode != 0:
            self.fail(f"{shlex.join(map(str, command))} gave {done.returncode}:\n{done.stdout}{done.stderr}")
        return done

    def make(self, *words: str, check: bool = True, **more: str) -> subprocess.CompletedProcess[str]:
        return self.run_quietly("make", f"PYTHON={sys.executable}", *words, check=check, **more)


class Built(Case):
    """With a program in the prover's place that only says how it was called, and copies the archive that is there."""

    def setUp(self) -> None:
        super().setUp()
        self.source = self.checkout / "crates/ads/src/lib.rt"
        self.source.parent.mkdir(parents=True)
        for path in (self.source, self.checkout / "crates.txt"):
            path.touch()
            os.utime(path, (0, 0))
        prover = self.folder / "tools/rt"
        prover.parent.mkdir()
        prover.write_text('#!/bin/sh\necho "${PWD##*/} $@" >> "$HOME/calls"\n'
                          'mkdir -p out && cp ../../target/staticlib/libads.a out\n')
        prover.chmod(0o755)

    def calls(self, *words: str) -> list[str]:
        """How the prover is called by `make` with these words."""
        (self.folder / "home/calls").write_text("")
        self.printed = self.make(*words, PATH=f"{self.folder}/tools:{self.environment()['PATH']}").stdout
        return (self.folder / "home/calls").read_text().splitlines()

    def test_proved_again_only_where_a_source_is_newer(self) -> None:
        self.assertEqual(self.calls(), [])
        archive = self.checkout / "target/staticlib/libads.a"
        newer = archive.stat().st_mtime + 10
        os.utime(self.source, (newer, newer))
        for words in (["shared"], ["install", f"PREFIX={self.folder}/usr"], ["uninstall", f"PREFIX={self.folder}/usr"]):
            self.assertEqual(self.calls(*words), [], words)
        self.assertEqual(self.calls(), ["ads lib"])
        os.utime(self.source, (0, 0))
        self.assertEqual(self.calls(), [])

    def test_demo_and_clean(self) -> None:
        shutil.rmtree(self.checkout / "target/lib")
        self.assertEqual(self.calls("demo"), [])
        self.assertRegex(self.printed, r"(?m)^samples/one-chunk\.ads: LLC.*header good$")
        self.assertIn("#20240229123456789SURVEYDESK0100042001", self.printed)
        self.assertEqual(self.calls("clean"), [])
        self.assertEqual(files(self.checkout / "target"), {"staticlib/libads.a"})


class Written(Case):
    def test_into_a_folder_that_is_moved(self) -> None:
        """With DESTDIR nothing is written elsewhere, and nothing in the files names it."""
        prefix, stage = self.folder / "final place", self.folder / "stage"
        before = state(self.checkout)
        self.make("install", f"PREFIX={prefix}", f"DESTDIR={stage}", PYTHONPYCACHEPREFIX=f"{self.folder}/compiled")
        staged = Path(f"{stage}{prefix}")
        self.assertEqual(files(staged), expected())
        self.assertEqual(files(stage), {f"{str(prefix)[1:]}/{name}" for name in expected()})
        self.assertEqual(state(self.checkout), before)
        self.assertEqual({path.name for path in self.folder.iterdir()}, {"checkout", "home", "stage", "tmp"})
        self.assertEqual([*state(self.folder / "home"), *state(self.folder / "tmp")], [])
        for name, (_, _, data) in state(staged).items():
            self.assertNotIn(str(stage).encode(), data, name)
            self.assertNotIn(str(self.checkout).encode(), data, name)

        staged.rename(prefix)
        self.works(prefix, prefix / MODULES)

    def test_over_links(self) -> None:
        """A link in a file's place is replaced; what it leads to stays."""
        prefix, kept = self.folder / "usr", self.folder / "kept"
        kept.write_bytes(b"kept")
        links = [prefix / name for name in sorted(expected())]
        for link in links:
            link.parent.mkdir(parents=True, exist_ok=True)
            link.symlink_to(kept)
        self.make("install", f"PREFIX={prefix}")
        self.assertEqual(kept.read_bytes(), b"kept")
        self.assertNotIn(kept, [link.resolve() for link in links])

    def test_modules_elsewhere(self) -> None:
        prefix, modules = self.folder / "usr", self.folder / "other place" / "modules"
        self.make("install", f"PREFIX={prefix}", f"PYTHONDIR={modules}")
        self.assertEqual(files(prefix), {name for name in expected() if not name.startswith(MODULES)})
        self.works(prefix, modules)
        self.make("uninstall", f"PREFIX={prefix}", f"PYTHONDIR={modules}")
        self.assertEqual([*files(prefix), *modules.iterdir()], [])

    def works(self, prefix: Path, modules: Path) -> None:
        """The command and the package run without the checkout, on the library that was installed with them."""
        hidden = self.checkout.rename(self.folder / "hidden")
        sample = ROOT / "samples/one-chunk.ads"
        program = ("import ads_metafile; ads_metafile.read(b''); print(ads_metafile.__file__); "
                   "mapped = [line.split(maxsplit=5) for line in open('/proc/self/maps')]; "
                   "print(*{words[5].strip() for words in mapped if 'libads' in words[-1]})")
        runs = [([prefix / "bin/ads", "check", sample], {}, f"{sample}: clean, 1 chunk, all sums good\n"),
                ([prefix / "bin/ads", "--version"], {}, f"ads {VERSION}\n"),
                ([sys.executable, "-c", program], {"PYTHONPATH": str(modules)},
                 f"{modules}/ads_metafile/__init__.py\n{prefix}/lib/libads.so.{VERSION}\n")]
        for command, more, printed in runs:
            done = self.run_quietly(*command, check=False, folder=self.folder, **more)
            self.assertEqual((done.returncode, done.stderr, done.stdout), (0, "", printed), command)
        hidden.rename(self.checkout)


class Removed(Case):
    def test_what_install_wrote_and_no_more(self) -> None:
        prefix = self.folder / "usr"
        others = [prefix / name for name in ("include/ads2.h", "lib/libads2.a", "bin/other", f"{MODULES}/other.py")]
        for path in others:
            path.parent.mkdir(parents=True, exist_ok=True)
            path.write_bytes(b"another's")
        before = state(prefix)
        self.make("install", f"PREFIX={prefix}")
        self.run_quietly(prefix / "bin/ads", "--version")
        self.make("install", f"PREFIX={prefix}")  # over itself
        self.assertEqual(files(prefix), expected() | {str(path.relative_to(prefix)) for path in others})
        self.make("uninstall", f"PREFIX={prefix}")
        left = state(prefix)
        self.assertEqual({name: value for name, value in left.items() if name in before}, before)
        self.assertEqual(left.keys() - before.keys(), {"lib/pkgconfig", "share", "share/man", "share/man/man1"})
        self.make("uninstall", f"PREFIX={prefix}")  # nothing is there any more
        self.assertEqual(state(prefix), left)


class Refused(Case):
    def test_said_and_nothing_written(self) -> None:
        shutil.rmtree(self.checkout / "target")
        prefix = self.folder / "usr"
        for words, said in ((["install", f"PREFIX={prefix}"], "there is no target/staticlib/libads.a; 'make' proves"),
                            (["uninstall", "PREFIX=usr"], "PREFIX must be an absolute path, is 'usr'"),
                            (["uninstall", f"PREFIX={prefix}", "PYTHONDIR=a"], "PYTHONDIR must be an absolute path")):
            with self.subTest(words):
                done = self.make(*words, check=False)
                self.assertNotEqual(done.returncode, 0)
                self.assertIn(said, done.stderr)
                self.assertFalse(prefix.exists() or (self.checkout / "usr").exists())


class Linked(Case):
    """A C program, built by what ads.pc says."""

    def flags(self, prefix: Path) -> list[str]:
        """By pkg-config, or read from ads.pc where that isn't there."""
        folder = prefix / "lib/pkgconfig"
        if shutil.which("pkg-config"):
            command = ["pkg-config", "--cflags", "--libs", "ads"]
            printed = subprocess.check_output(command, env=self.environment(PKG_CONFIG_PATH=str(folder)))
            # a byte outside ASCII comes with a backslash of its own
            return [flag.encode("latin-1").decode() for flag in shlex.split(printed.decode("latin-1"))]
        text = (folder / "ads.pc").read_text(encoding="utf-8")
        values: dict[str, str] = {}
        for name, value in re.findall(r"^(\w+)=(.*)$", text, re.MULTILINE):
            values[name] = Template(value).substitute(values)
        lines = re.findall(r"^(?:Cflags|Libs): (.*)$", text, re.MULTILINE)
        return [flag for line in lines for flag in shlex.split(Template(line).substitute(values))]

    def test_shared_and_static(self) -> None:
        prefix = self.folder / "a prefix"
        self.make("install", f"PREFIX={prefix}")
        flags = self.flags(prefix)
        self.assertEqual(flags, [f"-I{prefix}/include", f"-L{prefix}/lib", "-lads"])
        archive = [flag if flag != "-lads" else f"{prefix}/lib/libads.a" for flag in flags]
        for name, linked in (("shared", flags), ("static", archive)):
            with self.subTest(name):
                program = self.folder / name
                strict = ["-std=c99", "-Wall", "-Wextra", "-Wpedantic", "-Werror"]
                self.run_quietly("gcc", *strict, ROOT / "tests/c/example.c", *linked, "-o", program)
                path = {"LD_LIBRARY_PATH": str(prefix / "lib")} if name == "shared" else {}
                printed = self.run_quietly(program, **path).stdout
                listing = (ROOT / "crates/listing/stdout").read_text(encoding="utf-8")
                self.assertEqual(printed.splitlines()[-4:], listing.splitlines())
                self.assertIn(', counted contents "abc"\n', printed)

    def test_programs_and_libraries_of_before_0_4(self) -> None:
        """A program that was linked to the library of before runs with this one. One that is linked to this one doesn't
        run with that of before, which writes no ending into a row, and knows of no relations, price, ancestors and
        blocks."""
        before, now = self.folder / "before", self.checkout / "target/lib"
        before.mkdir()
        (before / "ads.map").write_text("ADS_0.2 { global: ads_*; local: *; };")
        self.run_quietly("gcc", "-shared", "-Wl,-soname,libads.so.0", f"-Wl,--version-script={before}/ads.map",
                         "-Wl,--whole-archive", self.checkout / "target/staticlib/libads.a", "-Wl,--no-whole-archive",
                         "-o", before / "libads.so.0")
        for linked in (before, now):
            self.run_quietly("gcc", "-Iinclude", ROOT / "tests/c/example.c", linked / "libads.so.0",
                             "-o", self.folder / f"linked-{linked.name}")
        for program in ("linked-before", "linked-lib"):
            printed = self.run_quietly(self.folder / program, LD_LIBRARY_PATH=str(now)).stdout
            self.assertIn("\n1 rows, clean\n", printed)
        for program in ("relations", "price", "ancestors") + ("blocks",):
            self.run_quietly("gcc", "-Iinclude", ROOT / f"tests/c/{program}.c", now / "libads.so.0",
                             "-o", self.folder / program)
        for program, node in (("linked-lib", "ADS_0.4"), ("relations", "ADS_0.6"), ("relations", "ADS_0.7"),
                              ("price", "ADS_0.8"), ("ancestors", "ADS_0.9"), ("blocks", "ADS_0.10")):
            refused = self.run_quietly(self.folder / program, check=False, LD_LIBRARY_PATH=str(before))
            self.assertNotEqual(refused.returncode, 0)
            self.assertIn(f"version `{node}' not found", refused.stderr)

    def test_names_of_the_shared_library(self) -> None:
        """The functions of the header are visible, ads_read under two versions, relations, price, ancestors and blocks
        under later ones; nothing else is."""
        library = self.checkout / "target/lib/libads.so.0"
        listed = self.run_quietly("nm", "-D", "--defined-only", library).stdout.split("\n")
        visible = {line.split()[-1] for line in listed if line and line.split()[1] != "A"}
        declared = set(re.findall(r"^(?!static)\w+ (ads_\w+)\(", HEADER, re.MULTILINE))
        later = {"ads_read": "ADS_0.4", "ads_relations_write": "ADS_0.6", "ads_relations_check": "ADS_0.6",
                 "ads_relations_check_latest": "ADS_0.7", "ads_price": "ADS_0.8", "ads_ancestors": "ADS_0.9",
                 "ads_pack": "ADS_0.10", "ads_unpack": "ADS_0.10"}
        named = {f"{name}@@{later.get(name, 'ADS_0.2')}" for name in declared}
        self.assertEqual(visible, named | {"ads_read@ADS_0.2"})
        self.assertEqual(len(declared), 26 + 2)
        dynamic = self.run_quietly("readelf", "-dlW", library).stdout
        self.assertIn("Library soname: [libads.so.0]", dynamic)
        self.assertRegex(dynamic, r"GNU_STACK .* RW ")
        self.assertIn("BIND_NOW", dynamic)
        self.assertNotIn("TEXTREL", dynamic)


if __name__ == "__main__":
    unittest.main()
