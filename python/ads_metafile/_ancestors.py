"""Every row that a row rests on. The library finds them; nothing is looked at here."""
from __future__ import annotations

import struct
from typing import NamedTuple

from ._library import accepted
from ._memory import Lent, anonymous

_ROOM = 63  # all but one of the 64 rows that are taken


class Ancestry(NamedTuple):
    """The rows that a row rests on, rising, and how many dependencies of it and of them name no row.

    >>> Ancestry([0, 2, 3], missing=1).rows
    [0, 2, 3]
    """

    rows: list[int]
    missing: int


def ancestors_of(data: memoryview, row: int) -> Ancestry:
    """The ancestry of a row."""
    buffer = anonymous(_ROOM * 8)
    answer = accepted("ads_ancestors", Lent(data), data.nbytes, row, Lent(buffer, writable=True), _ROOM)
    return Ancestry([each for each, in struct.iter_unpack("=Q", buffer[:answer.count * 8])], answer.missing)
