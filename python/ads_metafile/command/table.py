"""The table that `ads list` prints for people.

Its columns are as wide as the file's length and its widest header and offset need: no row waits for a later one.
"""
from __future__ import annotations

from collections.abc import Iterable, Iterator

from .. import File
from .._rows import ENDING_WORDS, Record, offset_counts_at
from .output import counted, put, put_lines, shown
from .reading import Given, Numbered, SubFormats, bad_rows, outcome

HEADINGS = ("row", "place", "header", "contents", "bytes", "end", "deps", "offset s", "sum", "ending", "serial",
            "sub-format")
SECOND = 10**10


def put_table(given: Given, rows: Iterator[Numbered], number: int, several: bool) -> None:
    """Prints the table of a file; between files an empty line."""
    file = given.file
    put(("\n" if number else "") + title(given) + "\n")
    if len(file):
        put_rows(file, rows)
    bad = len(bad_rows(file))
    sums = f", {bad:,} with {'a bad sum' if bad == 1 else 'bad sums'}" if bad else ""
    put(f"{counted(len(file), 'chunk')}{sums}; {outcome(file)}\n")


def put_rows(file: File, rows: Iterator[Numbered]) -> None:
    data, form, sub_format = file.data, line_form(file), SubFormats(file.data)

    def line(row: int, record: Record) -> str:
        serial, place, header, contents, size, end, dependencies, offset, _, good, ending = record
        seconds = in_seconds(offset) if offset_counts_at(data, place) else "-"
        return form.format(row, place, header, contents, f"{size:,}", end, dependencies, seconds,
                           "good" if good else "BAD", ENDING_WORDS[ending], serial.decode("ascii"), sub_format(place))

    put(form.format(*HEADINGS))
    put_lines(line(row, record) for row, record in rows)


def title(given: Given) -> str:
    """'survey.ads: NUL, mark of 90 bytes, header good'."""
    file = given.file
    if file.mark is None:
        about = "no whole header" if file.length else "no header"
    else:
        mark = f"mark of {counted(len(file.mark), 'byte')}" if file.mark else "no mark"
        about = f"{file.strategy}, {mark}, header {'good' if file.header_good else 'BAD'}"
    return f"{shown(given.name)}: {about}{', being written' if given.being_written else ''}"


def line_form(file: File) -> str:
    """The form of a line, with columns wide enough for every row of the file."""
    header, offset = widest(file.records())
    row, place, size = len(str(len(file) - 1)), len(str(file.length)), len(f"{file.length:,}")
    columns = (f">{max(3, row)}", f"<{max(5, place)}", f"<{max(6, header)}", f"<{max(8, place)}", f">{max(5, size)}",
               f"<{max(3, place)}", ">5", f"<{max(12, offset)}", "<4", "<14", "<38", "")
    return "  ".join("{:" + column + "}" for column in columns) + "\n"


def widest(records: Iterable[Record]) -> tuple[int, int]:
    """How many characters the longest header length and the longest offset take."""
    longest, offsets = 0, {0}
    for record in records:
        if record[2] > longest:
            longest = record[2]
        offsets.add(record[7])
    return len(str(longest)), max(len(in_seconds(offset)) for offset in offsets)


def in_seconds(offset: int) -> str:
    """An offset of 10^-10 seconds: '+8.035'."""
    whole, part = divmod(abs(offset), SECOND)
    return f"{'-' if offset < 0 else '+'}{whole}" + (f".{part:010}".rstrip("0") if part else "")
