"""What goes wrong with a file on disk, in words."""
from __future__ import annotations

import errno
import os

SHORTER = {
    errno.ENOENT: "no such file",
    errno.EEXIST: "exists already",
    errno.EISDIR: "is a directory",
}


def words_of(error: OSError, new: bool = False) -> str:
    """What the system says: 'no such file', 'permission denied'. Of a new file it is the folder that is missing."""
    if error.errno is None:
        return str(error)
    if new and error.errno == errno.ENOENT:
        return "no such folder"
    said = SHORTER.get(error.errno) or os.strerror(error.errno)
    return said[:1].lower() + said[1:]


class DiskError(Exception):
    """Input or output failed. The words say what happened and how the file stands now."""

    def __init__(self, path: str, words: str) -> None:
        super().__init__(path, words)
        self.path = path
        self.words = words

    def __str__(self) -> str:
        return f"{self.path}: {self.words}"
