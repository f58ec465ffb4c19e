"""Opening a file on disk, and reading one that is at hand as bytes.

The file is read into memory by one read, or mapped; `File` then reads its table.
"""
from __future__ import annotations

import errno
import os
import stat
from mmap import ACCESS_READ, mmap as map_file
from typing import Any

from ._file import File
from ._library import MOST_BYTES
from ._memory import BytesLike, anonymous
from ._numbers import LIMIT, Refused


def read(data: BytesLike) -> File:
    """Reads the table of a file that is at hand as bytes. They are not copied and must not change while it is open.

    >>> import ads_metafile
    >>> file = ads_metafile.read(b"Format_ID=")
    >>> file.clean, file.stop, file.number, file.words, len(file)
    (False, 0, 4, 'the bytes end too soon', 0)
    """
    return File(data)


def open(path: str | bytes | os.PathLike[Any], *, mmap: bool = False) -> File:
    """Opens a regular file: reads it into memory, once, and then its table.

    A file over 2^30 bytes is refused with 11 and not read. With mmap=True the file is mapped, not read into memory:
    then it must not change while it is open, and a mapped file that shrinks ends the process. Mapped, a file over 2^30
    bytes is a File with number 11 and without rows.

    >>> import ads_metafile, pathlib, tempfile
    >>> with tempfile.TemporaryDirectory() as folder:
    ...     path = pathlib.Path(folder) / "begun.ads"
    ...     _ = path.write_bytes(ads_metafile.begin(strategy="NUL", mark=b"****", serial=ads_metafile.serial_number(),
    ...         recorded="20240229", recorder="RECORDER", written="20240301", writer="DESK"))
    ...     with ads_metafile.open(path) as file:
    ...         file.clean, file.stop, file.header_good, file.strategy, file.mark, len(file)
    (True, 327, True, 'NUL', b'****', 0)
    """
    name = os.fsdecode(path)
    descriptor = os.open(path, os.O_RDONLY | os.O_NONBLOCK | os.O_NOCTTY | os.O_CLOEXEC)
    try:
        length = _length(descriptor, name)
        if length == 0:
            return File(b"", name=name)
        if mmap:
            mapped = map_file(descriptor, length, access=ACCESS_READ)
            return File(mapped, name=name, own=mapped)
        if length > MOST_BYTES:
            raise Refused(LIMIT, f"the file has {length:,} bytes")
        memory = anonymous(length, filled=True)
        return File(memory, length=_read_all(descriptor, memory), name=name, own=memory)
    finally:
        os.close(descriptor)


def _length(descriptor: int, name: str) -> int:
    status = os.fstat(descriptor)
    if stat.S_ISDIR(status.st_mode):
        raise IsADirectoryError(errno.EISDIR, os.strerror(errno.EISDIR), name)
    if not stat.S_ISREG(status.st_mode):
        raise ValueError(f"{name} is not a regular file")
    return status.st_size


def _read_all(descriptor: int, memory: map_file) -> int:
    """Fills the memory from the file's start and answers how many bytes there were; what grows behind isn't read."""
    done = 0
    with memoryview(memory) as whole:
        while done < len(whole):
            with whole[done:] as rest:
                count = os.preadv(descriptor, [rest], done)
            if count == 0:
                break
            done += count
    return done
