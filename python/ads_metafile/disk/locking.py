"""A metafile held open under the exclusive lock (flock) that append and cut-back take, and read under it.

Readers take a shared lock for the time of their one read where nobody writes, and go on without it elsewhere.
"""
from __future__ import annotations

import fcntl
import os
import time
from collections.abc import Iterator
from contextlib import contextmanager
from typing import NamedTuple

from .. import LIMIT, MOST_BYTES, Refused
from .descriptors import memory, open_regular, read_into
from .errors import DiskError, words_of

FIRST_PAUSE, LONGEST_PAUSE = 0.001, 0.05


class Taken(NamedTuple):
    """A file's bytes, read once, and whether a writer held its lock meanwhile."""

    data: memoryview
    being_written: bool


class LockedFile:
    """A regular file, open for reading and writing, under its exclusive lock."""

    def __init__(self, path: str, descriptor: int) -> None:
        self.path = path
        self.descriptor = descriptor
        self.length = length_of(descriptor)

    def read(self, room: int = 0) -> memoryview:
        """All bytes of the file, and zero bytes behind them where so much room is asked for in all."""
        view = memoryview(memory(max(self.length, room)))
        try:
            got = read_into(self.descriptor, view[:self.length])
        except OSError as error:
            raise DiskError(self.path, f"reading failed ({words_of(error)}); nothing was written") from error
        if got != self.length:
            raise DiskError(self.path, "became shorter while it was read; nothing was written")
        return view

    def length_now(self) -> int:
        return os.fstat(self.descriptor).st_size

    def expect(self, length: int) -> None:
        """Stops where the file hasn't the length that was left: somebody else writes."""
        found = self.length_now()
        if found != length:
            raise DiskError(self.path, f"has {found:,} bytes where {length:,} were left: somebody else writes to it "
                            "without the lock. Nothing more was touched; run `ads check`")


def length_of(descriptor: int) -> int:
    """The file's length; one over 2^30 is refused before the file is read."""
    length = os.fstat(descriptor).st_size
    if length > MOST_BYTES:
        raise Refused(LIMIT, f"the file has {length:,} bytes, and at most {MOST_BYTES:,} are read")
    return length


@contextmanager
def locked(path: str, wait: float) -> Iterator[LockedFile]:
    """Opens the file and takes its exclusive lock, for which it waits up to so many seconds."""
    descriptor = open_locked(path, time.monotonic() + wait)
    try:
        yield LockedFile(path, descriptor)
    finally:
        os.close(descriptor)


def open_locked(path: str, deadline: float) -> int:
    """A descriptor under the lock. A file that was replaced while the lock was waited for is opened anew."""
    while True:
        descriptor = open_regular(path, os.O_RDWR)
        try:
            take_lock(path, descriptor, deadline)
            if still_named(path, descriptor):
                return descriptor
        except BaseException:
            os.close(descriptor)
            raise
        os.close(descriptor)


def take_lock(path: str, descriptor: int, deadline: float) -> None:
    pause = FIRST_PAUSE
    while True:
        try:
            return fcntl.flock(descriptor, fcntl.LOCK_EX | fcntl.LOCK_NB)
        except BlockingIOError as error:
            left = deadline - time.monotonic()
            if left <= 0:
                raise DiskError(path, "another program holds the lock; nothing was written. Try again, or wait longer "
                                "with --wait S") from error
        except OSError as error:
            raise DiskError(path, f"its file system can't lock ({words_of(error)}); nothing was written") from error
        time.sleep(min(pause, left))
        pause = min(2 * pause, LONGEST_PAUSE)


def still_named(path: str, descriptor: int) -> bool:
    """Whether the path still names the file that is open."""
    try:
        return os.path.samestat(os.stat(path), os.fstat(descriptor))
    except OSError as error:
        raise DiskError(path, f"{words_of(error)} any more: it went while its lock was waited for") from error


def read_file(path: str) -> Taken:
    """Reads a regular file into memory, once, under a shared lock where no writer holds the lock."""
    descriptor = open_regular(path, os.O_RDONLY)
    try:
        being_written = not share_lock(descriptor)
        view = memoryview(memory(length_of(descriptor)))
        return Taken(view[:read_into(descriptor, view)], being_written)
    except OSError as error:
        raise DiskError(path, words_of(error)) from error
    finally:
        os.close(descriptor)


def share_lock(descriptor: int) -> bool:
    """Takes the shared lock if it is free; false where a writer holds it. Without locks no writer can be seen."""
    try:
        fcntl.flock(descriptor, fcntl.LOCK_SH | fcntl.LOCK_NB)
    except BlockingIOError:
        return False
    except OSError:
        pass
    return True
