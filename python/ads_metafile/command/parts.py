"""`ads contents`, `ads gather` and `ads parents`: the parts of a metafile that a row names."""
from __future__ import annotations

import os
import sys
from argparse import ArgumentTypeError, Namespace
from collections.abc import Callable, Iterator
from typing import TypeVar

from .. import NO_ROW, Dependency, File, Refused
from ..disk import DiskError, new_file, words_of, write_at
from .output import Earned, Usage, exact, flush, put, put_bytes, shown
from .reading import rows_there, take

HIGHEST = 2**64 - 1
JSON_NAMES = ("row", "dependency", "serial", "sub_format", "parent", "agree")

Answer = TypeVar("Answer")


def row_number(text: str) -> int:
    """A row's number, from 0 on. One that no file can have is as good as the highest."""
    if not (text.isascii() and text.isdigit()):
        raise ArgumentTypeError(f"{text!r} isn't a row number: rows count from 0")
    return min(int(text.lstrip("0")[:20] or "0"), HIGHEST)


def whole_number(text: str, what: str) -> int:
    """A number of cents or bytes. Nothing is rounded or cut off."""
    digits = text.lstrip("0") or "0"
    if not (text.isascii() and text.isdigit()) or len(digits) > 20 or int(digits) > HIGHEST:
        raise ArgumentTypeError(f"{text!r} isn't a whole number of {what} from 0 to {HIGHEST}")
    return int(digits)


def run_contents(options: Namespace, earned: Earned) -> None:
    file = take(options.file).file
    put_out(asked(file, lambda: file.contents(options.row)), options)


def run_gather(options: Namespace, earned: Earned) -> None:
    file = take(options.file).file
    put_out(memoryview(asked(file, lambda: file.gather(options.row, os.fsencode(options.id)), options.row)), options)


def asked(file: File, call: Callable[[], Answer], row: int = 0) -> Answer:
    """What the call gives; a refusal says what can be done."""
    try:
        return call()
    except Refused as error:
        if error.number == NO_ROW:
            raise Refused(NO_ROW, rows_there(file)) from error
        if not file[row].multichunk:
            raise Refused(error.number, f"row {row:,} isn't a MultiChunk; `ads contents` gives its contents") from error
        raise Refused(error.number, f"row {row:,} doesn't declare this short ID") from error


def put_out(data: memoryview, options: Namespace) -> None:
    """Writes the bytes to a new file, or to standard output."""
    if options.output not in (None, "-"):
        return write_new(options.output, data, options.file)
    if sys.stdout is None:
        raise DiskError("standard output", "is closed; give a new file with -o OUT")
    if sys.stdout.isatty() and not printable(data):
        raise Usage("the bytes aren't text, and standard output is a terminal; give a new file with -o OUT, or a pipe")
    put_bytes(data)
    flush()


def printable(data: memoryview) -> bool:
    """Whether a terminal can show the bytes as they are."""
    try:
        text = str(data, "utf-8")
    except UnicodeDecodeError:
        return False
    return all(line.isprintable() for line in text.replace("\t", " ").replace("\r\n", "\n").split("\n"))


def write_new(path: str, data: memoryview, source: str) -> None:
    """Writes a file that wasn't there; where that fails none is left."""
    try:
        with new_file(path) as descriptor:
            write_at(descriptor, data, 0)
    except FileExistsError as error:
        it_is = f"is {shown(source)} itself" if same_file(path, source) else "exists already"
        raise DiskError(path, f"{it_is}, and is never overwritten; give another name") from error
    except OSError as error:
        raise DiskError(path, f"{words_of(error, new=True)}; nothing was written") from error


def same_file(path: str, source: str) -> bool:
    try:
        return os.path.samefile(path, source)
    except OSError:
        return False


def run_parents(options: Namespace, earned: Earned) -> None:
    file = take(options.file).file
    if options.row is None:
        rows = ((row, file.parents(row)) for row in range(len(file)))
    else:
        rows = iter([(options.row, asked(file, lambda: file.parents(options.row)))])
    found = ((row, number, each) for row, dependencies in rows for number, each in enumerate(dependencies))
    if options.json:
        put_json(options.file, found)
    else:
        put_table(found)


def put_table(found: Iterator[tuple[int, int, Dependency]]) -> None:
    form = "{:>5}  {:>10}  {:<8}  {:<11}  {:<38}  {}\n"
    put(form.format("row", "dependency", "parent", "sub-formats", "serial", "sub-format"))
    for row, number, each in found:
        parent = "missing" if each.row is None else str(each.row)
        agree = "-" if each.row is None else "agree" if each.agree else "DIFFER"
        put(form.format(row, number, parent, agree, each.serial, each.sub_format))


def put_json(name: str, found: Iterator[tuple[int, int, Dependency]]) -> None:
    import json
    named = [dict(zip(JSON_NAMES, (row, number, each.serial, each.sub_format, each.row, each.agree), strict=True))
             for row, number, each in found]
    put(json.dumps({"file": exact(name), "dependencies": named}) + "\n")
