"""A metafile as the reading subcommands take it: read from disk once, with what people are told about it."""
from __future__ import annotations

from typing import NamedTuple, TypeAlias

from .. import File, read
from .._rows import SUB_FORMAT_AT, SUB_FORMAT_WIDTH, Record, sub_format_at
from ..disk import read_file
from .output import counted

Numbered: TypeAlias = tuple[int, Record]


class Given(NamedTuple):
    """A file's name, its reading, and whether a writer held its lock meanwhile."""

    name: str
    file: File
    being_written: bool


class SubFormats:
    """The sub-format of the chunk at a place. Those met lately are remembered: many chunks have the same."""

    MOST = 1000

    def __init__(self, data: memoryview) -> None:
        self.data = data
        self.known: dict[bytes, str] = {}

    def __call__(self, place: int) -> str:
        begin = place + SUB_FORMAT_AT
        key = bytes(self.data[begin:begin + SUB_FORMAT_WIDTH])
        found = self.known.get(key)
        if found is None:
            if len(self.known) == self.MOST:
                self.known.clear()
            found = self.known[key] = sub_format_at(self.data, place)
        return found


def take(name: str) -> Given:
    """Reads the file from disk and has the library read its table."""
    taken = read_file(name)
    return Given(name, read(taken.data), taken.being_written)


def outcome(file: File) -> str:
    """'clean: all .. bytes read', or where the reading stops and why."""
    if file.clean:
        return f"clean: all {counted(file.length, 'byte')} read"
    behind = file.length - file.stop
    if behind == 0:
        return stops(file)
    return f"{stops(file)}; {counted(behind, 'byte')} behind it {'is' if behind == 1 else 'are'} not in the table"


def stops(file: File) -> str:
    """'not clean: stops at byte .. with .. (..)'; of a file of no bytes, which reads with 0, 'not clean: no bytes'."""
    if file.length == 0:
        return "not clean: no bytes"
    return f"not clean: stops at byte {file.stop:,} with {file.number} ({file.words})"


def bad_rows(file: File) -> list[int]:
    """The rows whose sums are bad."""
    return [index for index, record in enumerate(file.records()) if not record[9]]


def rows_there(file: File) -> str:
    """'the file has 12 rows, 0 to 11'."""
    if len(file) == 0:
        return "the file has no rows"
    return f"the file has {counted(len(file), 'row')}, 0 to {len(file) - 1:,}"
