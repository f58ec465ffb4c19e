"""`ads list`: every row of a metafile's table, for people or as tsv, csv or json. Rows go out as they are made."""
from __future__ import annotations

from argparse import ArgumentTypeError, Namespace
from collections.abc import Iterator
from itertools import islice
from typing import Any

from .. import File, Refused
from .._rows import ENDING_WORDS
from ..disk import DiskError
from .output import DONE, REFUSED, Earned, exact, flush, put, put_lines, put_message, report, shown
from .reading import Given, Numbered, SubFormats, take
from .table import put_table

COLUMNS = ("row", "serial", "place", "header", "contents", "bytes", "end", "dependencies", "offset", "multichunk",
           "good", "sub_format", "ending")
ABOUT = ("file", "bytes", "strategy", "mark", "header_good", "count", "stop", "number", "words", "clean",
         "being_written")
TSV_ESCAPES = str.maketrans({"\\": "\\\\", "\t": "\\t", "\n": "\\n", "\r": "\\r"})
WORDS = ("false", "true")


def row_range(text: str) -> slice:
    """A:B, A:, :B or A, as Python's slices count."""
    first, colon, last = text.partition(":")
    try:
        begin = int(first) if first or not colon else None
        if begin is not None and not colon:
            return slice(begin, begin + 1 or None)
        return slice(begin, int(last) if last else None)
    except ValueError:
        raise ArgumentTypeError(f"{text!r} isn't A:B, two row numbers") from None


def run(options: Namespace, earned: Earned) -> None:
    for number, name in enumerate(options.file):
        try:
            list_file(name, number, options, earned)
        except (Refused, DiskError) as error:
            earned.add(report(error, name))


def list_file(name: str, number: int, options: Namespace, earned: Earned) -> None:
    given = take(name)
    earned.add(DONE if given.file.clean else REFUSED)
    if given.being_written and options.format in ("tsv", "csv"):
        put_message(f"{shown(name)}: being written")
    FORMATS[options.format](given, chosen(given.file, options), number, len(options.file) > 1)
    flush()


def chosen(file: File, options: Namespace) -> Iterator[Numbered]:
    """The rows that are asked for, with their numbers."""
    begin, end, _ = (options.rows or slice(None)).indices(len(file))
    rows = islice(enumerate(file.records()), begin, max(begin, end))
    return ((row, record) for row, record in rows if not record[9]) if options.bad else rows


def cells(file: File, rows: Iterator[Numbered]) -> Iterator[tuple[Any, ...]]:
    """The values of COLUMNS, numbers as they are."""
    sub_format = SubFormats(file.data)
    for row, (serial, place, header, contents, size, end, dependencies, offset, multichunk, good, ending) in rows:
        yield (row, serial.decode("ascii"), place, header, contents, size, end, dependencies, offset, WORDS[multichunk],
               WORDS[good], sub_format(place), ENDING_WORDS[ending])


def put_tsv(given: Given, rows: Iterator[Numbered], number: int, several: bool) -> None:
    if number == 0:
        put("\t".join(("file",) * several + COLUMNS) + "\n")
    first = exact(given.name).translate(TSV_ESCAPES).replace("%", "%%") + "\t" if several else ""
    form = first + "\t".join(["%s"] * len(COLUMNS)) + "\n"
    put_lines(form % row for row in cells(given.file, rows))


def put_csv(given: Given, rows: Iterator[Numbered], number: int, several: bool) -> None:
    import csv
    line_of = csv.writer(Echo(), lineterminator="\n").writerow
    if number == 0:
        put(line_of(("file",) * several + COLUMNS))
    first = (exact(given.name),) if several else ()
    put_lines(line_of(first + row) for row in cells(given.file, rows))


class Echo:
    """A file for csv.writer, whose writerow answers what `write` does: the line."""

    def write(self, line: str) -> str:
        return line


def about(given: Given) -> dict[str, Any]:
    """What JSON says about a file, but for its rows."""
    file = given.file
    mark = None if file.mark is None else file.mark.hex()
    return dict(zip(ABOUT, (exact(given.name), file.length, file.strategy, mark, file.header_good, len(file), file.stop,
                            file.number, file.words, file.clean, given.being_written), strict=True))


def put_json(given: Given, rows: Iterator[Numbered], number: int, several: bool) -> None:
    """One object on one line, rows last."""
    import json
    text = json.dumps
    put(text(about(given))[:-1] + ', "rows": [')
    form = ", ".join(f'"{name}": %s' for name in COLUMNS)
    put_lines(f"{', ' if place else ''}{{{form % (row[0], text(row[1]), *row[2:11], text(row[11]), text(row[12]))}}}"
              for place, row in enumerate(cells(given.file, rows)))
    put("]}\n")


FORMATS = {"table": put_table, "tsv": put_tsv, "csv": put_csv, "json": put_json}
