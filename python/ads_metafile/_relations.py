r"""The contents of a relation chunk (ADS\SYS\Relations): the text for a file, and what is said of each relation line of
one. The library writes and judges; nothing is looked at here.
"""
from __future__ import annotations

import struct
from enum import Enum
from typing import Any, NamedTuple

from ._library import MOST_BYTES, accepted
from ._memory import Lent, anonymous
from ._numbers import NO_ROOM, Refused

_HEADING_BYTES = 131
_LINE_BYTES = 605
_SHORTEST_LINE = 13  # a relation line of twelve bytes, and the line feed before it


class Verdict(Enum):
    """What is said of a relation line. As text it is in the words of the command.

    >>> str(Verdict.UNDECLARED), Verdict(3)
    ('undeclared', <Verdict.MALFORMED: 3>)
    """

    DECLARED = 1  # the header of a row declares just that dependency
    UNDECLARED = 2  # none does
    MALFORMED = 3  # it hasn't five well-formed fields

    def __str__(self) -> str:
        return self.name.lower()


class Checked(NamedTuple):
    """The row of the relation chunk that holds, and what is said of each of its relation lines."""

    row: int
    verdicts: list[Verdict]


_VERDICTS = {each.value: each for each in Verdict}


def text_of(data: memoryview, dependencies: int) -> bytes:
    """The text for a file whose rows have that many dependencies together."""
    room = min(_HEADING_BYTES + _LINE_BYTES * dependencies, MOST_BYTES)
    buffer = anonymous(room)
    try:
        answer = accepted("ads_relations_write", Lent(data), data.nbytes, Lent(buffer, writable=True), room)
    except Refused as error:
        if error.number != NO_ROOM:
            raise
        raise Refused(NO_ROOM, f"the text would have more than {MOST_BYTES:,} bytes") from None
    return buffer[:answer.length]


def verdicts_of(data: memoryview, row: int, length: int) -> list[Verdict]:
    """The verdicts on a row whose contents have that many bytes."""
    return _checked("ads_relations_check", data, (row,), length)[1]


def latest_of(data: memoryview, longest: int) -> Checked:
    """The row that holds and the verdicts on it, in a file in which no row's contents have more bytes."""
    answer, verdicts = _checked("ads_relations_check_latest", data, (), longest)
    return Checked(answer.row, verdicts)


def _checked(name: str, data: memoryview, row: tuple[int, ...], length: int) -> tuple[Any, list[Verdict]]:
    """The answer of a check and its verdicts, into a list for contents of that many bytes."""
    room = length // _SHORTEST_LINE
    buffer = anonymous(room * 4)
    answer = accepted(name, Lent(data), data.nbytes, *row, Lent(buffer, writable=True), room)
    return answer, [_VERDICTS[number] for number, in struct.iter_unpack("=I", buffer[:answer.count * 4])]
