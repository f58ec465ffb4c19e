"""Bytes that a user hands in: a file, or standard input for `-`."""
from __future__ import annotations

import errno
import io
import os
import stat

from .. import LIMIT, MOST_BYTES, Refused
from ..disk import DiskError, words_of

PIECE = 1 << 20


def read_input(path: str) -> bytes | bytearray:
    """All bytes, read once. Over 2^30 is refused with 11: a file before it is read, a pipe once that many came."""
    name = "standard input" if path == "-" else path
    try:
        with io.FileIO(0 if path == "-" else path, closefd=path != "-") as file:
            about = os.fstat(file.fileno())
            if about.st_size > MOST_BYTES:
                raise Refused(LIMIT, f"{name} has {about.st_size:,} bytes")
            return file.readall() if stat.S_ISREG(about.st_mode) else read_pieces(file, name)
    except OSError as error:
        raise DiskError(name, words_of(error)) from error


def read_pieces(file: io.FileIO, name: str) -> bytearray:
    data = bytearray()
    while piece := file.read(PIECE):
        data += piece
        if len(data) > MOST_BYTES:
            raise Refused(LIMIT, f"{name} has more than {MOST_BYTES:,} bytes")
    if piece is None:
        raise BlockingIOError(errno.EAGAIN, "doesn't wait for bytes")
    return data
