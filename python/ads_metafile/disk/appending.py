"""An append on disk: the library makes the finished file in memory, then three parts are written behind the old end.

Each part is on disk before the next is written, as the library's promise about power failures asks. Nothing is written
before the old end. Where a write or sync fails the file is cut back to the old end, unless somebody else wrote to it.
"""
from __future__ import annotations

import os
from collections.abc import Sequence
from typing import NamedTuple

from .. import Description, append_into, read, room_for
from .descriptors import write_at
from .errors import DiskError, words_of
from .locking import LockedFile, locked
from .signals import signals_held


class Prepared(NamedTuple):
    """The finished file in memory; its parts end at `ends`, the first begins at `old`. `row` is the new row."""

    finished: memoryview
    old: int
    ends: tuple[int, int, int]
    row: int


def prepare(file: LockedFile, description: Description, contents: bytes, *, parents: Sequence[int] = (),
            specific: bytes = b"", open: bool = False) -> Prepared:
    """Reads the file and has the library append to it in memory. Nothing is written yet."""
    buffer = file.read(room_for(file.length, len(contents), len(parents), len(specific)))
    ends = append_into(buffer, file.length, description, contents, parents, specific, open)
    finished = buffer[:ends[2]]
    return Prepared(finished, file.length, ends, len(read(finished)) - 1)


def write(file: LockedFile, prepared: Prepared) -> None:
    """Writes the three parts, each on disk before the next. Signals are to be held back meanwhile."""
    begin = prepared.old
    for end in prepared.ends:
        file.expect(begin)
        try:
            write_at(file.descriptor, prepared.finished[begin:end], begin)
            os.fdatasync(file.descriptor)
        except Exception as error:
            raise undone(file, prepared.old, end, error) from error
        begin = end
    file.expect(begin)


def undone(file: LockedFile, old: int, most: int, cause: Exception) -> DiskError:
    """Cuts the file back to its old end after a failed write or sync, if its length is still ours, and says so."""
    failed = f"writing failed ({words_of(cause) if isinstance(cause, OSError) else repr(cause)})"
    try:
        found = file.length_now()
        if not old <= found <= most:
            return DiskError(file.path, f"{failed}, and the file has {found:,} bytes: somebody else writes to it "
                             "without the lock. It wasn't cut back; run `ads check`")
        os.ftruncate(file.descriptor, old)
        os.fsync(file.descriptor)
    except OSError as error:
        return DiskError(file.path, f"{failed}, and cutting back to the old end, byte {old:,}, failed too "
                         f"({words_of(error)}): the row may stand; run `ads check`")
    return DiskError(file.path, f"{failed}; nothing was appended, the file is cut back to its old end, byte {old:,}")


def append(path: str, description: Description, contents: bytes = b"", *, parents: Sequence[int] = (),
           specific: bytes = b"", open: bool = False, wait: float = 10.0) -> Prepared:
    """Appends a chunk to a file on disk, under its lock; answers the finished file and the new row's number."""
    with locked(path, wait) as file:
        prepared = prepare(file, description, contents, parents=parents, specific=specific, open=open)
        with signals_held():
            write(file, prepared)
        return prepared
