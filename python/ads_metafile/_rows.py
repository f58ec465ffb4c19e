"""The table of rows in memory, and a row as a light view of it.

The rows' layout is that of ads_row. Sub-format, time words and dependencies are read at their fixed places in the
chunk, which the library has found whole.
"""
from __future__ import annotations

import struct
from enum import Enum
from itertools import islice
from mmap import mmap
from typing import TYPE_CHECKING, Any, Iterator, TypeAlias

from . import _library

if TYPE_CHECKING:
    from ._file import File

Record: TypeAlias = tuple[bytes, int, int, int, int, int, int, int, bool, bool, int]

RECORD = struct.Struct("<38s2x6Qq2?B5x")
FIELDS = tuple(name for name, *_ in _library.Row._fields_)
_NUMPY_FORMATS = ["S38"] + ["<u8"] * 6 + ["<i8", "?", "?", "u1"]

_SMALLEST_CHUNK = 856

# the lines of a chunk's header, in order: label and bytes of the value; each line ends in a line feed
_LINES = (("Chunk_Header_Length=", 12), ("SubFormat_ID=", 256), ("Generic_Type=", 3), ("Chunk_Time_Synch_Type=", 3),
          ("Chunk_Time_Standard=", 3 + 38), ("Chunk_Time_Offset=", 16), ("Chunk_Event_Synch=", 3 + 38),
          ("Chunk_Dependency_Length=", 12), ("Chunk_Dependency_Count=", 4))
_DEPENDENCY_LINES = (("Dependency_Serial_Number=", 38), ("Dependency_SubFormatID=", 256))


def _distances(lines: tuple[tuple[str, int], ...]) -> tuple[dict[str, int], int]:
    """How far from the first line each value begins, and how long all lines are."""
    places, end = {}, 0
    for label, width in lines:
        places[label] = end + len(label)
        end += len(label) + width + 1
    return places, end


_AT, _HEAD = _distances(_LINES)
_DEPENDENCY_AT, _DEPENDENCY = _distances(_DEPENDENCY_LINES)
SUB_FORMAT_AT = _AT["SubFormat_ID="]
SUB_FORMAT_WIDTH = 256
_SYNCH_TYPE_AT = _AT["Chunk_Time_Synch_Type="]
_STANDARD_AT = _AT["Chunk_Time_Standard="]


def most_rows(length: int) -> int:
    """Rows that are enough for any file of that many bytes: a chunk has 856 or more."""
    return length // _SMALLEST_CHUNK + 1


def sub_format_at(data: memoryview, place: int) -> str:
    """The sub-format of the chunk that begins at that place of the file, without its trailing spaces."""
    return _text(data, place + SUB_FORMAT_AT, SUB_FORMAT_WIDTH)


def offset_counts_at(data: memoryview, place: int) -> bool:
    """Whether the offset of the chunk that begins there counts: not under SPE, and not under NUL standard."""
    synch_type = data[place + _SYNCH_TYPE_AT:place + _SYNCH_TYPE_AT + 3]
    standard = data[place + _STANDARD_AT:place + _STANDARD_AT + 3]
    return synch_type != b"SPE" and standard != b"NUL"


def dependency_at(data: memoryview, place: int, dependency: int) -> tuple[str, str]:
    """Serial number and sub-format that the chunk's dependency names."""
    lines = place + _HEAD + _DEPENDENCY * dependency
    serial = _text(data, lines + _DEPENDENCY_AT["Dependency_Serial_Number="], 38)
    return serial, _text(data, lines + _DEPENDENCY_AT["Dependency_SubFormatID="], SUB_FORMAT_WIDTH)


def in_digits(serial: bytes) -> bytes:
    """The serial number with zeros for the spaces in front of its check; so two writings of one are equal."""
    check = serial[35:].lstrip(b" ")
    return serial[:35] + check.rjust(len(serial) - 35, b"0") if check else serial


def _text(data: memoryview, place: int, width: int) -> str:
    return data[place:place + width].tobytes().rstrip(b" ").decode("ascii")


class Ending(Enum):
    """How the end of a chunk was found. As text it is in the words of the command."""

    COUNTED = 0  # by the content length
    FOUND = 1  # by the mark, where the content length is 0
    BY_MINI_CHUNKS = 2  # by the mini-chunks of a MultiChunk

    def __str__(self) -> str:
        return ENDING_WORDS[self.value]


ENDING_WORDS = ("counted", "found", "by mini-chunks")


class Row:
    r"""A chunk of the table, as the library read it: a view of the table's memory, valid while the file is open.

    Places count from the file's first byte.

    >>> import ads_metafile
    >>> data = ads_metafile.begin(strategy="LLC", serial=ads_metafile.serial_number(), recorded="20240229",
    ...     recorder="RECORDER", written="20240301", writer="DESK")
    >>> description = ads_metafile.Description(sub_format="ADS\\DATA\\TEST", generic_type="TXT", synch_type="GEN",
    ...     time_standard="UTC", time_offset="+0000      8.035", event_synch="NUL",
    ...     serial_number="#20240229123456789SURVEYDESK0100042001",
    ...     recording=("20240229", "RECORDER"), writing=("20240301", "DESK"))
    >>> with ads_metafile.read(ads_metafile.append(data, description, b"abc").data) as file:
    ...     row = file[0]
    ...     row.serial, row.place, row.bytes, row.offset, row.good, row.ending.name, row.sub_format
    ...     bytes(row.contents)
    ('#20240229123456789SURVEYDESK0100042001', 319, 3, 80350000000, True, 'COUNTED', 'ADS\\DATA\\TEST')
    b'abc'
    """

    __slots__ = ("_file", "index")

    def __init__(self, file: File, index: int) -> None:
        self._file = file
        self.index = index

    @property
    def record(self) -> Record:
        """All values of the row, as `File.records` gives them."""
        return RECORD.unpack_from(self._file._table(), self.index * RECORD.size)

    @property
    def serial(self) -> str:
        """Serial number."""
        return self.record[0].decode("ascii")

    @property
    def place(self) -> int:
        """Where the chunk begins."""
        return self.record[1]

    @property
    def header(self) -> int:
        """Bytes of its header."""
        return self.record[2]

    @property
    def contents_place(self) -> int:
        """Where its contents begin: after the content length line; for a MultiChunk, at its first line."""
        return self.record[3]

    @property
    def bytes(self) -> int:
        """Bytes of its contents."""
        return self.record[4]

    @property
    def end(self) -> int:
        """Where the chunk ends, its closing included."""
        return self.record[5]

    @property
    def dependencies(self) -> int:
        """How many dependencies it has."""
        return self.record[6]

    @property
    def offset(self) -> int:
        """Time offset in units of 10^-10 second; 0 where it doesn't count."""
        return self.record[7]

    @property
    def offset_counts(self) -> bool:
        """Whether the offset counts: not under SPE, and not under NUL standard."""
        return offset_counts_at(self._file._bytes(), self.place)

    @property
    def multichunk(self) -> bool:
        """Whether it is a MultiChunk."""
        return self.record[8]

    @property
    def good(self) -> bool:
        """Whether its sum is good."""
        return self.record[9]

    @property
    def ending(self) -> Ending:
        """How its end was found."""
        return Ending(self.record[10])

    @property
    def sub_format(self) -> str:
        """Sub-format, without its trailing spaces."""
        return sub_format_at(self._file._bytes(), self.place)

    @property
    def contents(self) -> memoryview:
        """The contents: a part of the file's memory, not copied. An opened file can't be closed while it is alive."""
        _, _, _, place, length, *_ = self.record
        return self._file._bytes()[place:place + length]

    def as_dict(self) -> dict[str, Any]:
        """All values, under the names of the command's JSON."""
        serial, *values, ending = self.record
        named = dict(zip(FIELDS[1:-1], values, strict=True))
        return {"row": self.index, "serial": serial.decode("ascii"), **named, "sub_format": self.sub_format,
                "ending": ENDING_WORDS[ending]}

    def __eq__(self, other: object) -> bool:
        return self.index == other.index and self.record == other.record if isinstance(other, Row) else NotImplemented

    def __hash__(self) -> int:
        return hash((self.index, self.record[0]))

    def __repr__(self) -> str:
        if self._file.closed:
            return f"<Row {self.index} of a closed file>"
        good = "good" if self.good else "bad"
        return f"<Row {self.index}: {self.serial} {self.sub_format}, {self.bytes} bytes, sum {good}>"


def records(table: mmap, count: int) -> Iterator[Record]:
    """The values of each row, one after the other."""
    return islice(RECORD.iter_unpack(table), count)


def array(table: mmap, count: int) -> Any:
    """The rows as a structured array of numpy over the table's memory."""
    try:
        import numpy
    except ImportError:
        raise ImportError("to_numpy needs numpy, which isn't installed; records() does without") from None
    offsets = [getattr(_library.Row, name).offset for name in FIELDS]
    row = numpy.dtype({"names": FIELDS, "formats": _NUMPY_FORMATS, "offsets": offsets, "itemsize": RECORD.size})
    rows = memoryview(table)[:count * RECORD.size].toreadonly()
    return numpy.frombuffer(rows, row) if count else numpy.zeros(0, row)
