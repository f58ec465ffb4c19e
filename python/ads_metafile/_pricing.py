"""The price statement of a file. The library reckons and writes; its text is only taken apart here."""
from __future__ import annotations

from typing import NamedTuple

from ._library import accepted, size
from ._memory import Lent, anonymous

_LINE_BYTES = 38  # three numbers of at most 7, 10 and 18 digits, and a byte behind each
_TOTAL_BYTES = 25


class PricedRow(NamedTuple):
    """A line of a statement: the row, its contents bytes and its cents."""

    row: int
    bytes: int
    cents: int


class Statement(NamedTuple):
    """The text of a price statement, and the file's bytes in three parts, which add to its length: those of the file
    header, of the chunks in rows, and from the stop on.

    >>> statement = Statement("0 3 107\\n1 7 0\\ntotal 107\\n", 319, 1722, 0)
    >>> statement.rows
    [PricedRow(row=0, bytes=3, cents=107), PricedRow(row=1, bytes=7, cents=0)]
    >>> statement.total
    107
    """

    text: str
    header: int
    chunks: int
    unread: int

    @property
    def rows(self) -> list[PricedRow]:
        """The lines, but for the last one."""
        return [PricedRow(*map(int, line.split())) for line in self.text.splitlines()[:-1]]

    @property
    def total(self) -> int:
        """The cents of the last line."""
        return int(self.text.split()[-1])


def statement_of(data: memoryview, rows: int, chunk: int, kib: int) -> Statement:
    """The statement of a file with so many rows."""
    fee, rate = size(chunk, "chunk"), size(kib, "kib")
    room = _LINE_BYTES * rows + _TOTAL_BYTES
    buffer = anonymous(room)
    answer = accepted("ads_price", Lent(data), data.nbytes, fee, rate, Lent(buffer, writable=True), room)
    return Statement(buffer[:answer.length].decode("ascii"), answer.header, answer.chunks, answer.unread)
