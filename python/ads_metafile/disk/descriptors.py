"""Descriptors of regular files: opening, reading, writing at a place, new files, the sync of a folder."""
from __future__ import annotations

import ctypes
import errno
import fcntl
import mmap
import os
import stat
from collections.abc import Iterator
from contextlib import contextmanager, suppress

from .errors import DiskError, words_of

NO_LINKS = (errno.EPERM, errno.EOPNOTSUPP, errno.ENOSYS)
AT_FDCWD = -100
RENAME_NOREPLACE = 1


def open_regular(path: str, flags: int) -> int:
    """Opens a regular file that is there. A pipe or device isn't waited for, and not taken."""
    try:
        descriptor = above_streams(os.open(path, flags | os.O_CLOEXEC | os.O_NOCTTY | os.O_NONBLOCK))
    except OSError as error:
        raise DiskError(path, words_of(error)) from error
    mode = os.fstat(descriptor).st_mode
    if stat.S_ISREG(mode):
        return descriptor
    os.close(descriptor)
    raise DiskError(path, "is a directory" if stat.S_ISDIR(mode) else "isn't a regular file")


def above_streams(descriptor: int) -> int:
    """The descriptor, or a copy above 2: what is printed to a stream that was closed must not reach a file."""
    if descriptor > 2:
        return descriptor
    try:
        return fcntl.fcntl(descriptor, fcntl.F_DUPFD_CLOEXEC, 3)
    finally:
        os.close(descriptor)


def memory(length: int) -> mmap.mmap | bytearray:
    """Zero bytes that take memory only once they are touched."""
    if length == 0:
        return bytearray()
    made = mmap.mmap(-1, length, flags=mmap.MAP_PRIVATE | mmap.MAP_ANONYMOUS)
    with suppress(AttributeError, OSError):
        made.madvise(mmap.MADV_HUGEPAGE)
    return made


def read_into(descriptor: int, buffer: memoryview) -> int:
    """Reads from the file's first byte on until the buffer is full or the file ends; answers how many bytes."""
    place = 0
    while place < len(buffer):
        got = os.preadv(descriptor, [buffer[place:]], place)
        if got == 0:
            break
        place += got
    return place


def write_at(descriptor: int, part: memoryview, place: int) -> None:
    """Writes all bytes of the part at the place. A short write goes on."""
    done = 0
    while done < len(part):
        wrote = os.pwrite(descriptor, part[done:], place + done)
        if wrote == 0:
            raise OSError(errno.EIO, "nothing was written")
        done += wrote


@contextmanager
def new_file(path: str, mode: int = 0o666) -> Iterator[int]:
    """A descriptor to write a file that wasn't there; where the block fails the file is removed again."""
    descriptor = above_streams(os.open(path, os.O_WRONLY | os.O_CREAT | os.O_EXCL | os.O_CLOEXEC, mode))
    try:
        try:
            yield descriptor
        finally:
            os.close(descriptor)
    except BaseException:
        with suppress(OSError):
            os.unlink(path)
        raise


def give_name(temporary: str, path: str) -> None:
    """Gives a file its name, which must be free: by a link, and on a file system without links, as FAT, by a rename that
    replaces nothing."""
    try:
        os.link(temporary, path)
    except OSError as error:
        if error.errno not in NO_LINKS:
            raise
        rename_free(temporary, path, error)


def rename_free(temporary: str, path: str, no_links: OSError) -> None:
    """Renames a file where its new name is free; where the system has no such rename it is the missing link that failed."""
    rename = getattr(ctypes.CDLL(None, use_errno=True), "renameat2", None)
    if rename is None:
        raise no_links
    if rename(AT_FDCWD, os.fsencode(temporary), AT_FDCWD, os.fsencode(path), RENAME_NOREPLACE) != 0:
        number = ctypes.get_errno()
        raise no_links if number in (errno.EINVAL, errno.ENOSYS) else OSError(number, os.strerror(number))


def sync_folder(path: str) -> None:
    """Brings the names in the file's folder to disk."""
    descriptor = os.open(os.path.dirname(path) or ".", os.O_RDONLY | os.O_DIRECTORY | os.O_CLOEXEC)
    try:
        os.fsync(descriptor)
    finally:
        os.close(descriptor)
