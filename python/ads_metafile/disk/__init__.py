"""Metafiles on disk: the lock, reading, append, begin and cut-back. What the bytes say is asked of the library alone.

    append(path, description, contents, wait=10)   a chunk, in three writes, each on disk before the next
    create(path, begin(strategy="LLC", ..))        a new file, never over another one; also a packed one
    read_file(path)                                the bytes, once, and whether a writer holds the lock
    locked(path, wait)                             the exclusive lock; prepare and write, look and cut work under it
"""
from .appending import Prepared, append, prepare, write
from .beginning import create
from .cutting import Behind, copy_beside, cut, look
from .descriptors import new_file, write_at
from .errors import DiskError, words_of
from .locking import LockedFile, Taken, locked, read_file
from .signals import HELD, hold_signals, signals_held

__all__ = [
    "HELD", "Behind", "DiskError", "LockedFile", "Prepared", "Taken", "append", "copy_beside", "create", "cut",
    "hold_signals", "locked", "look", "new_file", "prepare", "read_file", "signals_held", "words_of", "write",
    "write_at",
]
