"""What the command prints: names and numbers for people, messages of one line; standard output may be closed."""
from __future__ import annotations

import os
import sys
from collections.abc import Callable, Iterator
from itertools import islice
from typing import Any

from .. import Refused
from ..disk import DiskError, words_of

BLOCK = 500
DONE, REFUSED, USAGE, DISK = 0, 1, 2, 3
"""The exit statuses: done; refused or not clean; usage; input or output."""


class Usage(Exception):
    """The command was called in a way that can't be done; the words are one line."""


class Declined(Exception):
    """The command doesn't do it, with status 1; the words are one line."""


class Closed(Exception):
    """Nobody reads standard output any more."""


class Earned:
    """The exit status that was earned so far: the gravest one."""

    def __init__(self) -> None:
        self.status = DONE

    def add(self, status: int) -> None:
        self.status = max(self.status, status)


def shown(name: str) -> str:
    """A name as people read it: quoted with escapes where a character isn't printable.

    >>> shown("línea 7.ads"), shown("a\\nb.ads")
    ('línea 7.ads', '"a\\\\nb.ads"')
    """
    if name and name.isprintable():
        return name
    return '"' + "".join(escaped(character) for character in name) + '"'


def escaped(character: str) -> str:
    """A character as an escape where it must be one; \\x is a byte that is no text."""
    number = ord(character)
    if 0xDC80 <= number <= 0xDCFF:
        return f"\\x{number - 0xDC00:02x}"
    if 0x80 <= number <= 0xFF and not character.isprintable():
        return f"\\u{number:04x}"
    if character in '"\\':
        return "\\" + character
    return character if character.isprintable() else character.encode("unicode_escape").decode("ascii")


def exact(name: str) -> str:
    """A name for machine formats: itself, but for bytes that are no text in this locale, which show as \\xNN."""
    return os.fsencode(name).decode(sys.getfilesystemencoding(), "backslashreplace")


def counted(number: int, what: str) -> str:
    """'1 chunk', '2,000 chunks'."""
    return f"{number:,} {what if number == 1 else what + 's'}"


def prepare_streams() -> None:
    """What a stream's encoding doesn't have is printed as an escape."""
    for stream in (sys.stdout, sys.stderr):
        if stream is not None:
            stream.reconfigure(errors="backslashreplace")


def put(text: str) -> None:
    """Prints text as it is."""
    if sys.stdout is not None:
        guarded(sys.stdout.write, text)


def put_lines(lines: Iterator[str]) -> None:
    """Prints lines as they are made, some hundred at a time."""
    while block := "".join(islice(lines, BLOCK)):
        put(block)


def put_bytes(data: memoryview) -> None:
    """Prints bytes as they are."""
    flush()
    done = 0
    while done < len(data):
        done += guarded(os.write, sys.stdout.fileno(), data[done:])


def flush() -> None:
    if sys.stdout is not None:
        guarded(sys.stdout.flush)


def guarded(call: Callable[..., Any], *arguments: Any) -> Any:
    """A call on standard output. Once one failed nothing more is written there, at the process's end neither."""
    try:
        return call(*arguments)
    except OSError as error:
        os.dup2(os.open(os.devnull, os.O_WRONLY), sys.stdout.fileno())
        if isinstance(error, BrokenPipeError):
            raise Closed from error
        raise DiskError("standard output", words_of(error)) from error


def report(error: Refused | Declined | DiskError, name: str) -> int:
    """Says in one line what went wrong with a file, and answers the status that it earns."""
    if isinstance(error, DiskError):
        put_message(f"{shown(error.path)}: {error.words}")
        return DISK
    put_message(f"{shown(name)}: {error}")
    return REFUSED


def put_message(text: str) -> None:
    """A message of one line on standard error."""
    put_beside("ads: " + "".join(character if character.isprintable() else escaped(character) for character in text))


def put_beside(text: str) -> None:
    """Lines on standard error, as they are."""
    try:
        if sys.stderr is not None:
            print(text, file=sys.stderr, flush=True)
    except OSError:
        pass
