"""The parsers of the command and its subcommands: options, help, examples. The man page is made from them."""
from __future__ import annotations

import sys
from argparse import Action, ArgumentParser, HelpFormatter, Namespace
from collections.abc import Callable
from typing import Any, NoReturn, TypeAlias

from .. import __version__
from . import ancestors, blocks, checking, cutting, fields, listing, parts, pricing, relations, writing
from .output import USAGE, Earned, flush, put, put_message

Run: TypeAlias = Callable[[Namespace, Earned], None]

DESCRIPTION = ("Reads, checks and writes SEG-UKOOA ADS metafiles 1.00. What a file's bytes say is judged by the proved "
               "library libads.")
STATUSES = """exit status:
  0  done; of check: every file is clean and all sums are good
  1  refused, or a file isn't clean; of check: or a sum is bad; of relations --check: or a line isn't declared; of
     unpack --length: or the length is another; of cut-back: there is something to cut
  2  usage
  3  input or output

`ads SUBCOMMAND --help` shows an example of each."""
NEW_FILE = "write a new file, which must not be there yet; without it, or with -, the bytes go to standard output"


class Help(HelpFormatter):
    """Help whose descriptions are wrapped, and whose last part stands as it is."""

    def _fill_text(self, text: str, width: int, indent: str) -> str:
        if text.startswith(("example:", "exit status:")):
            return "\n".join(indent + line for line in text.splitlines())
        return super()._fill_text(text, width, indent)

    def add_argument(self, action: Action) -> None:
        """Leaves room for the names of subcommands too, which are indented."""
        super().add_argument(action)
        for each in self._iter_indented_subactions(action):
            width = len(self._format_action_invocation(each)) + self._current_indent
            self._action_max_length = max(self._action_max_length, width)


class Parser(ArgumentParser):
    """A parser that says in one line what is wrong, with status 2."""

    def error(self, message: str) -> NoReturn:
        put_message(f"{self.prog.removeprefix('ads ')}: {message}; see `{self.prog} --help`")
        sys.exit(USAGE)

    def _print_message(self, message: str, file: Any = None) -> None:
        put(message)
        flush()


def make_parser() -> ArgumentParser:
    parser = Parser(prog="ads", description=DESCRIPTION, epilog=STATUSES, formatter_class=Help, allow_abbrev=False)
    parser.add_argument("--version", action="version", version=f"ads {__version__}", help="show the version")
    subcommands = parser.add_subparsers(title="subcommands", dest="subcommand", metavar="SUBCOMMAND", required=True)

    def add(name: str, run: Run, summary: str, text: str, example: str) -> ArgumentParser:
        made = subcommands.add_parser(name, help=summary, description=text, epilog=f"example:\n{example}",
                                      formatter_class=Help, allow_abbrev=False)
        made.set_defaults(run=run)
        return made

    for adding in (add_reading, add_parts, add_relations, add_price, add_writing, add_blocks):
        adding(add)
    return parser


def add_reading(add: Callable[..., ArgumentParser]) -> None:
    made = add("list", listing.run, "show every chunk of a file",
               "Shows every row of a file's table, then whether the file is clean. A file that isn't clean is shown up "
               "to where its reading stops, and the status is 1. A bad sum is shown and doesn't change the status. The "
               "offset is shown in seconds, or as a dash where it doesn't count; ending says how the end of the chunk "
               "was found: counted, found by the mark, or by mini-chunks.",
               "  ads list survey.ads\n  ads list --format tsv --rows 100:200 survey.ads")
    made.add_argument("file", nargs="+", metavar="FILE", help="metafile")
    made.add_argument("--format", choices=("table", "tsv", "csv", "json"), default="table",
                      help="table, for people (the default); tsv or csv, of several files with a first column for the "
                      "file's name; json, one object a line for each file")
    made.add_argument("--rows", type=listing.row_range, metavar="A:B",
                      help="only rows from A on and before B; also A:, :B, and A for one row")
    made.add_argument("--bad", action="store_true", help="only rows with a bad sum")
    made = add("check", checking.run, "say whether files are clean and their sums good",
               "Says in one line for each file whether it is clean and its sums are good, and else at which byte its "
               "reading stops and why, or that it has no bytes. The status is 3 if a file couldn't be read, else 1 if "
               "one is refused or isn't clean or a sum is bad.",
               "  ads check *.ads\n  ads check --quiet *.ads || echo look at these")
    made.add_argument("file", nargs="+", metavar="FILE", help="metafile")
    made.add_argument("--quiet", action="store_true", help="print only what isn't good")
    made.add_argument("--json", action="store_true", help="print one JSON object a line for each file")


def add_parts(add: Callable[..., ArgumentParser]) -> None:
    made = add("contents", parts.run_contents, "copy out the contents of a chunk",
               "Writes the contents of a row, byte for byte.", "  ads contents survey.ads 0 -o shots.p2")
    add_row(made, "row, counted from 0")
    add_output(made)
    made = add("parents", parts.run_parents, "show the parents that chunks name",
               "Shows for each dependency of a row, or of all rows, the row that has its serial number, and whether "
               "the dependency names that row's own sub-format.",
               "  ads parents survey.ads\n  ads parents survey.ads 3")
    add_row(made, "only this row, counted from 0", nargs="?")
    made.add_argument("--json", action="store_true", help="print one JSON object")
    add_ancestors(add)
    made = add("gather", parts.run_gather, "join the mini-chunks of a MultiChunk under one short ID",
               "Writes the data of a MultiChunk's mini-chunks under one short ID, joined in order.",
               "  ads gather survey.ads 2 P2/91 -o depths.txt")
    add_row(made, "row of a MultiChunk, counted from 0")
    made.add_argument("id", metavar="ID", help="short ID, at most 10 characters")
    add_output(made)


def add_ancestors(add: Callable[..., ArgumentParser]) -> None:
    made = add("ancestors", ancestors.run, "show every chunk that a chunk rests on",
               "Shows every row that is reached from a row by dependencies, in one or more steps, each once and in "
               "file order; then how many there are, and how many dependencies of the row and of those name no row of "
               "the file. It is refused with 23 where a chain of dependencies comes back to a row on it, with 24 where "
               "the file has more than 64 rows. A file that isn't clean is taken up to where its reading stops, a "
               "message says so, and the status is 1.",
               "  ads ancestors survey.ads 3\n  ads ancestors survey.ads 3 --tree")
    add_row(made, "row, counted from 0")
    either = made.add_mutually_exclusive_group()
    either.add_argument("--tree", action="store_true",
                        help="show the row and, under each row and farther in, what its dependencies name; a row that "
                        "stands above isn't opened again")
    either.add_argument("--json", action="store_true", help="print one JSON object")


def add_relations(add: Callable[..., ArgumentParser]) -> None:
    made = add("relations", relations.run, "write or check the contents of a relation chunk",
               "Writes the contents of a relation chunk (ADS\\SYS\\Relations) for a file: a line for each dependency "
               "of each row. With --check it says instead of each relation line of such a chunk, counted from 0, "
               "whether the header of a row declares that dependency: declared, undeclared, or malformed; then how "
               "many there are of each. Comments are not counted. The status is 1 if a line isn't declared. Of several "
               "such chunks --check latest takes the one that holds, and prints its row: the one with the latest "
               "writing date, and of equal dates the later row.",
               "  ads relations survey.ads --write relations.txt\n  ads relations survey.ads --check 4\n"
               "  ads relations survey.ads --check latest")
    made.add_argument("file", metavar="FILE", help="metafile")
    either = made.add_mutually_exclusive_group()
    either.add_argument("--write", "-o", dest="output", metavar="OUT", help=NEW_FILE)
    either.add_argument("--check", metavar="ROW", type=relations.row_or_latest,
                        help="row of a relation chunk, counted from 0, or latest")


def add_price(add: Callable[..., ArgumentParser]) -> None:
    made = add("price", pricing.run, "print the price statement of a file",
               "Prints for each row of a file's table its number, its contents bytes and its cents, then the total: as "
               "many cents as --chunk says for each chunk with a good sum, and as many as --kib says for each started "
               "1,024 contents bytes of it; a chunk with a bad sum costs 0. On standard error it prints the file's "
               "bytes in three parts: header, chunks and unread, those behind the stop. A file that isn't clean is "
               "priced up to where its reading stops, a message says so, and the status is 1.",
               "  ads price survey.ads --chunk 100 --kib 7\n  ads price survey.ads --chunk 100 --kib 7 --json")
    made.add_argument("file", metavar="FILE", help="metafile")
    made.add_argument("--chunk", required=True, type=pricing.cents, metavar="CENTS",
                      help="cents for each chunk with a good sum")
    made.add_argument("--kib", required=True, type=pricing.cents, metavar="CENTS",
                      help="cents for each started 1,024 contents bytes of such a chunk")
    made.add_argument("--json", action="store_true", help="print one JSON object, with the three parts")


def add_blocks(add: Callable[..., ArgumentParser]) -> None:
    made = add("pack", blocks.run_pack, "copy a file into blocks of 512 bytes",
               "Writes a copy of a file in blocks of 512 bytes, each with its number, its use and its sum, for disks "
               "that lose single blocks. Any file of up to 1,056,964,608 bytes is taken. It prints the length of the "
               "file, to be carried beside the copy: not every loss is seen without it. OUT is a new file: its name "
               "appears once it is on disk, and never in place of another file.",
               "  ads pack survey.ads survey.blocks")
    made.add_argument("file", metavar="FILE", help="file to be packed")
    made.add_argument("output", metavar="OUT", help="new file for the blocks")
    made = add("unpack", blocks.run_unpack, "write the file that was packed into blocks",
               "Writes the file that was packed, to a new file as pack does. A copy is refused with 27 where the sum "
               "of a block is wrong, with 28 where its number is, with 29 where its use is, where a spare byte isn't "
               "zero, or where a block isn't whole or there is none. Two losses are seen by the length alone, so give "
               "it: a copy whose last blocks are missing, but not all, is the packed file of the bytes before them, "
               "and a copy of one block that came back as zeros is that of no bytes.",
               "  ads unpack survey.blocks copy.ads --length 7214")
    made.add_argument("file", metavar="FILE", help="file of blocks")
    made.add_argument("output", metavar="OUT", help="new file for what was packed")
    made.add_argument("--length", type=blocks.length, metavar="N",
                      help="refuse a copy that doesn't unpack to N bytes, the length that pack printed")


def add_row(made: ArgumentParser, what: str, **more: Any) -> None:
    made.add_argument("file", metavar="FILE", help="metafile")
    made.add_argument("row", metavar="ROW", type=parts.row_number, help=what, **more)


def add_output(made: ArgumentParser) -> None:
    made.add_argument("-o", "--output", metavar="OUT", help=NEW_FILE)


def add_writing(add: Callable[..., ArgumentParser]) -> None:
    add("fields", writing.run_fields, "print a template of all fields for append and begin",
        "Prints a commented TOML file of every field of a chunk and of a file header, with their forms and example "
        "values. Fill it in and hand it to append or begin with --fields.", "  ads fields > chunk.toml")
    made = add("begin", writing.run_begin, "begin a new file without chunks",
               "Writes the header of a new file. Its name appears once the file is on disk, and never in place of "
               "another file. Without a mark given there is none.",
               "  ads begin survey.ads --strategy NUL --mark-hex 2a2a2a2a0a --serial auto \\\n"
               '      --recorded today --recorder "MV EXAMPLE"')
    made.add_argument("file", metavar="FILE", help="new metafile")
    fields.add_options(made, "header")
    add_append(add)
    made = add("cut-back", cutting.run, "show or cut off what stands behind a file's stop",
               "Shows what stands behind the place where the reading of a file stops: after a power failure, what is "
               "left of an append. With --yes it copies that to a new file beside the metafile, then cuts the metafile "
               "there.",
               "  ads cut-back survey.ads\n  ads cut-back --yes survey.ads")
    made.add_argument("file", metavar="FILE", help="metafile")
    made.add_argument("--yes", action="store_true", help="cut the file at its stop")
    made.add_argument("--no-copy", dest="copy", action="store_false", help="keep no copy of what is cut off")
    made.add_argument("--force", action="store_true", help="cut even where whole chunks may be among the bytes")
    add_wait(made)


def add_append(add: Callable[..., ArgumentParser]) -> None:
    made = add("append", writing.run_append, "append a chunk to a file",
               "Appends a chunk to a clean file, under an exclusive lock, in three writes, each on disk before the "
               "next, and then prints its row. After a power failure the file reads with its old rows, or whole. Where "
               "a write fails the file is cut back to its old end.",
               "  ads append survey.ads --fields chunk.toml --contents data.bin --serial auto --parent 0")
    made.add_argument("file", metavar="FILE", help="metafile")
    made.add_argument("--contents", required=True, metavar="DATA", help="file with the contents; - is standard input")
    made.add_argument("--specific", metavar="FILE",
                      help="file with specific data for the chunk's header; - is standard input")
    made.add_argument("--parent", type=parts.row_number, action="append", default=[], metavar="ROW",
                      help="row that the chunk depends on; may be given up to 16 times")
    made.add_argument("--open", action="store_true", help="leave the content length open (only under NUL, for TXT)")
    add_wait(made)
    fields.add_options(made, "chunk")


def add_wait(made: ArgumentParser) -> None:
    made.add_argument("--wait", type=writing.seconds, default=10.0, metavar="S",
                      help="wait up to S seconds for the file's lock (10)")
