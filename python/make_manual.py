"""Makes the man page ads(1) from the parsers' help: `python3 python/make_manual.py > man/ads.1`.

tests/python/test_command_manual.py holds man/ads.1 to what this prints.
"""
from __future__ import annotations

import argparse
import re
import sys
from collections.abc import Iterable, Iterator
from pathlib import Path

sys.path.insert(0, str(Path(__file__).resolve().parent))

from ads_metafile import WORDS, __version__  # noqa: E402
from ads_metafile.command import ancestors, checking, listing, parts, pricing  # noqa: E402
from ads_metafile.command.parser import DESCRIPTION, make_parser  # noqa: E402

SYNOPSIS = ("ads SUBCOMMAND [OPTION ..] FILE ..", "ads [SUBCOMMAND] --help", "ads --version")
STATUS = (("0", "Done. Of check: every file is clean and all sums are good."),
          ("1", "Refused with a number, or a file isn't clean. Of check: or a sum is bad. Of relations --check: or a "
           "line isn't declared. Of unpack --length: or the length is another. Of cut-back: there is something to cut, "
           "or it isn't cut."),
          ("2", "Usage: options, or a file of fields, that can't be taken."),
          ("3", "Input or output: a file can't be opened, read, locked or written; also whatever is unexpected."))
AFTER_STATUS = """
A signal (SIGINT, SIGTERM, SIGHUP) ends the process by that signal, and no metafile was changed. From the first byte
that append, begin, cut-back, pack or unpack writes on the three are held back: it is done, and ends as done.

A closed standard output ends the command quietly, with the status that was earned; only contents, gather and relations
need one."""
MESSAGES = """
On standard error, one line each: the file, the number of the refusal, its words, what can be done. Names with
characters that aren't printable are quoted, with escapes. The three parts that price prints there are no messages: the
lines are header, chunks and unread, each with its number."""
LOCKS = """
append and cut-back take an exclusive lock by flock(2) and wait for it up to --wait seconds. Under it they see whether
the file was replaced meanwhile, and open it anew. Before each write the file must have the length that was left; if
not, somebody else writes without the lock, and nothing more is touched. list and check try a shared lock without
waiting; where a writer holds the lock they say "being written".

Where the file system can't lock, nothing is written and the status is 3. Some network mounts lock only locally, against
processes of the same machine: NFS mounted with nolock, or with local_lock=flock or local_lock=all; SMB (cifs) on Linux
before 5.5, or mounted with nobrl; sshfs and other FUSE file systems without locks of their own. There, append from one
machine at a time."""
POWER = """
An append is three writes behind the old end, each on disk before the next. After a power failure the file reads with
its old rows, or with the new one too if it is whole. Then `ads check` says where its reading stops, and `ads cut-back`
what stands behind that place. Damage of another kind may look the same: look before cutting."""
FILES = (("FILE.behind-N", "What cut-back cut off from byte N on; with -2, -3 and so on where the name was taken."),
         (".ads-begin-..", "A temporary name in the folder of a file that is begun, packed or unpacked. Where that is "
          "killed it may be left, and can be removed; the file's own name is then free, or names the whole file."))
ENVIRONMENT = (("ADS_LIBRARY", "The path of the library libads.so.0, if it is to be another one."),
               ("ADS_DEBUG", "Set to 1, an unexpected error is shown whole."))
JSON = """
Names never change; new ones may join. Numbers are exact; places count from the file's first byte; offset is in units
of 10^-10 second, 0 where it doesn't count; mark is hexadecimal; ending says how the end of the chunk was found: counted
(by the content length), found (by the mark) or by mini-chunks. In a file's name bytes that are no text show as \\xNN.
Where a header isn't whole, strategy and mark are null; words is null where number is 0. A file of no bytes has number 0
and isn't clean. The columns of tsv and csv are those of a row. error says why a file couldn't be read; then good is
false and the rest null."""


def plain(text: str) -> str:
    """Text as roff: characters stand for themselves, what is between backquotes is bold."""
    text = text.replace("\\", "\\e").replace("-", "\\-").replace("^", "\\(ha")
    text = re.sub(r"`([^`]*)`", r"\\fB\1\\fR", text)
    return "\n".join("\\&" + line if line.startswith((".", "'")) else line for line in text.splitlines())


def paragraphs(text: str) -> Iterator[str]:
    for paragraph in text.strip().split("\n\n"):
        yield ".PP"
        yield plain(" ".join(paragraph.split()))


def section(name: str, text: str) -> list[str]:
    return [f".SH {name}", *paragraphs(text)]


def tagged(items: Iterable[tuple[str, str]]) -> Iterator[str]:
    for tag, text in items:
        yield from (".TP", f"\\fB{plain(tag)}\\fR", plain(" ".join(text.split())))


def subcommands(parser: argparse.ArgumentParser) -> dict[str, argparse.ArgumentParser]:
    return next(action.choices for action in parser._actions if isinstance(action, argparse._SubParsersAction))


def arguments(parser: argparse.ArgumentParser) -> list[tuple[str, str]]:
    """Each argument and option as help shows it, and its help."""
    formatter = parser._get_formatter()
    return [(formatter._format_action_invocation(action), action.help or "") for action in parser._actions
            if not isinstance(action, argparse._HelpAction)]


def about_subcommand(name: str, parser: argparse.ArgumentParser) -> list[str]:
    usage = " ".join(parser.format_usage().removeprefix("usage:").split()).replace(" [-h]", "")
    example = re.sub(r"(?m)^  ", "", (parser.epilog or "").removeprefix("example:\n"))
    return [f".SS {plain(name)}", plain(usage), *paragraphs(parser.description or ""), *tagged(arguments(parser)),
            ".PP", "Example:", ".PP", ".nf", plain(example), ".fi"]


def manual() -> str:
    """The man page."""
    lines = [f'.TH ADS 1 "" "ads {__version__}" "ADS metafiles"', ".SH NAME", "ads \\- SEG\\-UKOOA ADS metafiles 1.00",
             ".SH SYNOPSIS", *(f"{plain(line)}\n.br" for line in SYNOPSIS), *section("DESCRIPTION", DESCRIPTION),
             ".SH SUBCOMMANDS"]
    for name, each in subcommands(make_parser()).items():
        lines += about_subcommand(name, each)
    lines += [".SH EXIT STATUS", *tagged(STATUS), *paragraphs(AFTER_STATUS), *section("MESSAGES", MESSAGES)]
    lines += [".SH NUMBERS", *tagged((str(number), words) for number, words in WORDS.items() if number)]
    lines += [*section("LOCKS", LOCKS), *section("POWER FAILURES", POWER), *section("JSON", JSON)]
    lines += tagged([("list", ", ".join((*listing.ABOUT, "rows"))), ("each of rows", ", ".join(listing.COLUMNS)),
                     ("check", ", ".join(checking.JSON_NAMES)), ("parents", "file, dependencies"),
                     ("each of dependencies", ", ".join(parts.JSON_NAMES)),
                     ("ancestors", ", ".join(ancestors.JSON_NAMES)),
                     ("each of its rows", ", ".join(ancestors.ROW_NAMES)), ("price", ", ".join(pricing.JSON_NAMES)),
                     ("each of its rows", ", ".join(pricing.ROW_NAMES))])
    lines += [".SH FILES", *tagged(FILES), ".SH ENVIRONMENT", *tagged(ENVIRONMENT)]
    return "\n".join(lines) + "\n"


if __name__ == "__main__":
    sys.stdout.write(manual())
