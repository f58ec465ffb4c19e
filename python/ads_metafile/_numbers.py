"""The numbers that the library answers: names, words, and the exception that carries one.

Names and words are those of docs/numbers.tsv; a test holds them equal.
"""
from __future__ import annotations

OK = 0
TITLE, TAPE, MARK_MINI, CUT, DIFFERS, FORM, LENGTH, SHORT_ID, REPEATED = range(1, 10)
ROWS_FULL, LIMIT, NOT_CLEAN, NO_ROW, NO_DEPENDENCY, MARK_ZERO, OPEN, MULTICHUNK, NO_ROOM = range(10, 19)
NOT_RELATIONS, HEADING, TOTAL = range(19, 22)
CIRCLE, ROWS_OVER_64 = range(23, 25)
BLOCK_SUM, BLOCK_NUMBER, BLOCK_USE = range(27, 30)

_LIST = {
    0: ("OK", "no refusal"),
    1: ("TITLE", "the first 65 bytes are not those of an ADS 1.00 file"),
    2: ("TAPE", "NUL with a mark of no bytes, the tape form"),
    3: ("MARK_MINI", "the mark begins with MiniChunk="),
    4: ("CUT", "the bytes end too soon"),
    5: ("DIFFERS", "a label, line feed, mark or listed word differs"),
    6: ("FORM", "a field is out of form or range"),
    7: ("LENGTH", "a length disagrees with what it measures, or the type count is outside 1 to 64"),
    8: ("SHORT_ID", "a short ID is there twice or undeclared, or there is no mini-chunk"),
    9: ("REPEATED", "the serial number is already in a row"),
    10: ("ROWS_FULL", "another whole chunk with a new serial number, and no row left"),
    11: ("LIMIT", "a byte buffer is over 2^30 bytes, or the length is over the buffer's"),
    12: ("NOT_CLEAN", "the file isn't clean"),
    13: ("NO_ROW", "no such row"),
    14: ("NO_DEPENDENCY", "no such dependency, not a MultiChunk, or the short ID is undeclared"),
    15: ("MARK_ZERO", "the mark has a zero byte"),
    16: ("OPEN", "open under LLC or for BIN, or the mark is found before the data's end"),
    17: ("MULTICHUNK", "a MultiChunk can't be appended"),
    18: ("NO_ROOM", "the buffer or list is too short for the result"),
    19: ("NOT_RELATIONS", "the row isn't a relation chunk"),
    20: ("HEADING", "the heading line of the relation chunk differs"),
    21: ("TOTAL", "the total has more than 18 digits"),
    23: ("CIRCLE", "a chain of dependencies comes back to a row on it"),
    24: ("ROWS_OVER_64", "more than 64 rows in the reading"),
    27: ("BLOCK_SUM", "the sum of a block is wrong"),
    28: ("BLOCK_NUMBER", "the number of a block is wrong"),
    29: ("BLOCK_USE", "the use of a block is wrong, a spare byte isn't zero, or a block isn't whole"),
}

NAMES: dict[int, str] = {number: name for number, (name, _) in _LIST.items()}
WORDS: dict[int, str] = {number: words for number, (_, words) in _LIST.items()}


class Refused(Exception):
    """A call that the library refused: `number`, its `name` (such as "NO_ROW") and its `words`.

    `remark` is what the package adds to the words, or None.

    >>> raise Refused(13)
    Traceback (most recent call last):
    ads_metafile._numbers.Refused: refused with 13 (no such row)
    """

    def __init__(self, number: int, remark: str | None = None) -> None:
        super().__init__(number, remark)
        self.number = number
        self.remark = remark
        self.name = NAMES.get(number, "UNKNOWN")
        self.words = WORDS.get(number, "a number that this package doesn't know")

    def __str__(self) -> str:
        text = f"refused with {self.number} ({self.words})"
        return text if self.remark is None else f"{text}: {self.remark}"
