"""A new file on disk. Its name appears once the whole file is on disk, and never in place of another file."""
from __future__ import annotations

import os
from contextlib import suppress

from .descriptors import give_name, new_file, sync_folder, write_at
from .errors import DiskError, words_of
from .signals import signals_held

TEMPORARY = ".ads-begin-"


def create(path: str, data: bytes, done: str = "begun", rename: bool = False) -> None:
    """Writes the file under a temporary name in the same folder, then links it to its name, which must be free. `done`
    is the word for that in a message. With `rename` a file system without links does."""
    temporary = os.path.join(os.path.dirname(path), TEMPORARY + os.urandom(8).hex())
    with signals_held():
        try:
            if os.path.lexists(path):
                raise FileExistsError
            with new_file(temporary) as descriptor:
                write_at(descriptor, memoryview(data), 0)
                os.fsync(descriptor)
                (give_name if rename else os.link)(temporary, path)
        except FileExistsError as error:
            raise DiskError(path, "exists already, and is never overwritten; give another name") from error
        except OSError as error:
            raise DiskError(path, f"{words_of(error, new=True)}; nothing was {done}") from error
        finish(path, temporary, done)


def finish(path: str, temporary: str, done: str) -> None:
    """Removes the temporary name and brings the names to disk; the file stands already."""
    with suppress(OSError):
        os.unlink(temporary)
    try:
        sync_folder(path)
    except OSError as error:
        raise DiskError(path, f"is {done} and stands, but its folder couldn't be synced ({words_of(error)}): after a "
                        "power failure the name may be missing") from error
