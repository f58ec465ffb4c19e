"""What stands behind a metafile's stop, and cutting it off: after a power failure, under the lock that append takes.

Nothing is cut before a copy of it is on disk, unless none is wanted.
"""
from __future__ import annotations

import itertools
import os
import re
from typing import NamedTuple

from .. import REPEATED, File, read
from .descriptors import new_file, sync_folder, write_at
from .errors import DiskError, words_of
from .locking import LockedFile

LABEL = re.compile(rb"Chunk_Header_Length=")


class Behind(NamedTuple):
    """A reading, the bytes behind its stop, and how often the label with which a chunk begins stands in them."""

    file: File
    data: memoryview
    labels: int

    @property
    def whole_chunks_possible(self) -> bool:
        """More may be among the bytes than one chunk that was cut short: the label stands behind their first byte."""
        return self.file.number == REPEATED or self.labels > (1 if LABEL.match(self.data) else 0)


def look(file: LockedFile) -> Behind:
    """Reads the file and what stands behind its stop."""
    whole = file.read()
    reading = read(whole)
    data = whole[reading.stop:]
    return Behind(reading, data, sum(1 for _ in LABEL.finditer(data)))


def copy_beside(file: LockedFile, behind: Behind) -> str:
    """Copies what would be cut to a new file beside the metafile, on disk with its name; answers its path."""
    mode = os.fstat(file.descriptor).st_mode & 0o777
    for number in itertools.count(1):
        path = f"{file.path}.behind-{behind.file.stop}" + (f"-{number}" if number > 1 else "")
        try:
            with new_file(path, mode) as descriptor:
                write_at(descriptor, behind.data, 0)
                os.fsync(descriptor)
                sync_folder(path)
            return path
        except FileExistsError:
            continue
        except OSError as error:
            raise DiskError(path, f"the copy couldn't be written ({words_of(error)}); nothing was cut") from error
    raise AssertionError("there is a fresh name")


def cut(file: LockedFile, behind: Behind) -> None:
    """Cuts the file at the stop of its reading. Signals are to be held back meanwhile."""
    file.expect(file.length)
    try:
        os.ftruncate(file.descriptor, behind.file.stop)
        os.fsync(file.descriptor)
    except OSError as error:
        raise DiskError(file.path, f"cutting failed ({words_of(error)}); run `ads check`") from error
