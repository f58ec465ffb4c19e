"""Writing: a file's header, the description of a chunk, and append, which makes the bytes to be written to disk.

Nothing here touches a disk. What is in form, the library says.
"""
from __future__ import annotations

import ctypes
import os
from datetime import datetime, timezone
from typing import Any, Iterable, NamedTuple

from . import _library
from ._library import MOST_BYTES, Text, accepted, call, fixed, size, text
from ._memory import BytesLike, Lent, anonymous, view
from ._numbers import NO_ROOM, Refused

_SERIAL, _DATE, _WORD, _OFFSET = 38, 8, 3, 16
_MOST_MARK = 999
_FILE_HEADER = 319
_CHUNK_HEADER, _DEPENDENCY, _CONTENT_LENGTH, _INTEGRITY = 568, 344, 34, 254


class Description:
    r"""The description of a chunk to append, by keywords or by chained methods, each of which gives a new description.

    Nothing is judged here: `append` refuses what is out of form, over-long or was never set (6). Only a field of a
    fixed length raises ValueError where it has another one. Of `time_standard` and `alternate_standard` the last call
    holds, and so of `event_synch`, `slave_event` and `master_event`; as keywords only one of them may be given.

    >>> import ads_metafile
    >>> first = ads_metafile.Description(sub_format="ADS\\DATA\\TEST", generic_type="TXT", synch_type="GEN",
    ...     time_standard="UTC", time_offset="+0000      8.035", event_synch="NUL",
    ...     recording=("20240229", "RECORDER"), writing=("20240301", "DESK"))
    >>> second = first.sub_format("ADS\\DATA\\OTHER").serial_number(ads_metafile.serial_number())
    >>> first.generic_type("TEXT")
    Traceback (most recent call last):
    ValueError: generic_type must have 3 bytes, has 4
    """

    __slots__ = ("_struct",)

    def __init__(self, *, sub_format: Text | None = None, generic_type: Text | None = None,
                 synch_type: Text | None = None, time_standard: Text | None = None,
                 alternate_standard: Text | None = None, time_offset: Text | None = None,
                 event_synch: Text | None = None, slave_event: Text | None = None, master_event: Text | None = None,
                 serial_number: Text | None = None, recording: tuple[Text, Text] | None = None,
                 writing: tuple[Text, Text] | None = None) -> None:
        given = {name: value for name, value in locals().items() if name != "self" and value is not None}
        for group in (("time_standard", "alternate_standard"), ("event_synch", "slave_event", "master_event")):
            if len(given.keys() & group) > 1:
                raise ValueError(f"only one of {', '.join(group)} can be given")
        made: Description = self._of(call("ads_description_new"))
        for name, value in given.items():
            if name not in ("recording", "writing"):
                value = (value,)
            elif not isinstance(value, (tuple, list)) or len(value) != 2:
                raise TypeError(f"{name} must be a pair of date and agent")
            made = getattr(made, name)(*value)
        self._struct: _library.DescriptionStruct = made._struct

    @staticmethod
    def _of(struct: _library.DescriptionStruct) -> Description:
        made = object.__new__(Description)
        made._struct = struct
        return made

    def _with(self, name: str, *arguments: Any) -> Description:
        return self._of(call(f"ads_{name}", self._struct, *arguments))

    def sub_format(self, given: Text) -> Description:
        """SubFormat_ID, at most 256 bytes."""
        made = text(given, "sub_format")
        return self._with("sub_format", made, len(made))

    def generic_type(self, word: Text) -> Description:
        """Generic_Type: BIN or TXT."""
        return self._with("generic_type", fixed(word, _WORD, "generic_type"))

    def synch_type(self, word: Text) -> Description:
        """Chunk_Time_Synch_Type: GEN or SPE."""
        return self._with("synch_type", fixed(word, _WORD, "synch_type"))

    def time_standard(self, word: Text) -> Description:
        """Chunk_Time_Standard: UTC or NUL."""
        return self._with("time_standard", fixed(word, _WORD, "time_standard"))

    def alternate_standard(self, serial: Text) -> Description:
        """Chunk_Time_Standard: ALT, with its serial number."""
        return self._with("alternate_standard", fixed(serial, _SERIAL, "alternate_standard"))

    def time_offset(self, given: Text) -> Description:
        """Chunk_Time_Offset as it stands in the file: sign, hours, minutes, seconds, such as "+0000      8.035"."""
        return self._with("time_offset", fixed(given, _OFFSET, "time_offset"))

    def event_synch(self, word: Text) -> Description:
        """Chunk_Event_Synch: NUL."""
        return self._with("event_synch", fixed(word, _WORD, "event_synch"))

    def slave_event(self, serial: Text) -> Description:
        """Chunk_Event_Synch: SLV, with its serial number."""
        return self._with("slave_event", fixed(serial, _SERIAL, "slave_event"))

    def master_event(self, serial: Text) -> Description:
        """Chunk_Event_Synch: MAS, with its serial number."""
        return self._with("master_event", fixed(serial, _SERIAL, "master_event"))

    def serial_number(self, serial: Text) -> Description:
        """Chunk_Serial_Number."""
        return self._with("serial_number", fixed(serial, _SERIAL, "serial_number"))

    def recording(self, date: Text, agent: Text) -> Description:
        """Recording date, such as "20240229", and agent, at most 32 bytes."""
        return self._dated("recording", date, agent)

    def writing(self, date: Text, agent: Text) -> Description:
        """Writing date and agent."""
        return self._dated("writing", date, agent)

    def _dated(self, name: str, date: Text, agent: Text) -> Description:
        made = text(agent, f"{name} agent")
        return self._with(name, fixed(date, _DATE, f"{name} date"), made, len(made))


def begin(*, strategy: Text, mark: Text = b"", serial: Text, recorded: Text, recorder: Text, written: Text,
          writer: Text) -> bytes:
    """A file's header: the bytes of a file without chunks. The strategy is LLC or NUL, a mark has no zero byte.

    >>> import ads_metafile
    >>> len(ads_metafile.begin(strategy="LLC", serial=ads_metafile.serial_number(), recorded="20240229",
    ...     recorder="RECORDER", written="20240301", writer="DESK"))
    319
    """
    buffer = bytearray(_FILE_HEADER + 2 * _MOST_MARK)
    mark, recorder, writer = text(mark, "mark"), text(recorder, "recorder"), text(writer, "writer")
    answer = accepted("ads_begin", fixed(strategy, _WORD, "strategy"), mark, len(mark),
                      fixed(serial, _SERIAL, "serial"), fixed(recorded, _DATE, "recorded"), recorder, len(recorder),
                      fixed(written, _DATE, "written"), writer, len(writer), Lent(buffer, writable=True), len(buffer))
    return bytes(buffer[:answer.length])


class Appended(NamedTuple):
    """A finished file: the length before, the ends of the three writes, and all bytes, the old ones too."""

    old: int
    ends: tuple[int, int, int]
    data: memoryview

    @property
    def writes(self) -> tuple[memoryview, memoryview, memoryview]:
        """What is to be written behind the old end, each on disk before the next: header with content length line,
        data, closing."""
        first, second, third = self.ends
        return self.data[self.old:first], self.data[first:second], self.data[second:third]


def room_for(length: int, contents: int, parents: int = 0, specific: int = 0) -> int:
    """How long a buffer is enough to append a chunk to a file of that length, for any mark.

    The others count bytes of contents, parents, and bytes of specific data. Never over 2^30: no more is taken.
    """
    header = _CHUNK_HEADER + _DEPENDENCY * parents + specific
    return min(length + header + _CONTENT_LENGTH + contents + _INTEGRITY + 2 * _MOST_MARK, MOST_BYTES)


def append_into(buffer: BytesLike, length: int, description: Description, contents: BytesLike = b"",
                parents: Iterable[int] = (), specific: BytesLike = b"", open: bool = False) -> tuple[int, int, int]:
    """Appends a chunk to the file that the first `length` bytes of a writable buffer hold, in that buffer.

    The answer is the ends of the three writes. Bytes past the third end keep their state; a refused call changes
    nothing. `room_for` says how long a buffer is enough. Contents and specific data must not lie in it (ValueError).
    """
    if not isinstance(description, Description):
        raise TypeError(f"description must be a Description, not {type(description).__name__}")
    length, rows = size(length, "length"), [size(row, "parent") for row in parents]
    lent_rows = Lent((ctypes.c_size_t * max(len(rows), 1))(*rows))
    room, data, extra = Lent(buffer, writable=True), Lent(contents), Lent(specific)
    if room.overlaps(data) or room.overlaps(extra):
        for each in (room, data, extra):
            each.release()
        raise ValueError("contents and specific data must not lie in the buffer: copy them first")
    ends = accepted("ads_append", room, room.length, length, description._struct, lent_rows, len(rows), extra,
                    extra.length, data, data.length, bool(open))
    return ends.first, ends.second, ends.third


def append(data: BytesLike, description: Description, contents: BytesLike = b"", *, parents: Iterable[int] = (),
           specific: BytesLike = b"", open: bool = False) -> Appended:
    r"""Appends a chunk to the file that `data` holds, in memory of its own: one copy of the file is made.

    `parents` are rows of the file, at most 16, none twice. With open=True the content length is left 0, for NUL and TXT
    alone.

    >>> import ads_metafile
    >>> begun = ads_metafile.begin(strategy="LLC", serial=ads_metafile.serial_number(), recorded="20240229",
    ...     recorder="RECORDER", written="20240301", writer="DESK")
    >>> description = ads_metafile.Description(sub_format="ADS\\DATA\\TEST", generic_type="TXT", synch_type="GEN",
    ...     time_standard="UTC", time_offset="+0000      8.035", event_synch="NUL",
    ...     recording=("20240229", "RECORDER"), writing=("20240301", "DESK"))
    >>> first = ads_metafile.append(begun, description.serial_number(ads_metafile.serial_number(random=1)), b"abc")
    >>> first.old, first.ends, [len(write) for write in first.writes]
    (319, (921, 924, 1178), [602, 3, 254])
    >>> second = ads_metafile.append(first.data, description.serial_number(ads_metafile.serial_number(random=2)),
    ...     parents=[0])
    >>> ads_metafile.read(second.data).parent(1, 0)
    Parent(row=0, agree=True)
    """
    source, rows = view(data), list(parents)
    length = source.nbytes
    room = room_for(length, view(contents).nbytes, len(rows), view(specific).nbytes)
    buffer = memoryview(anonymous(room, filled=True))
    if length <= room:
        buffer[:length] = source
    try:
        ends = append_into(buffer, length, description, contents, rows, specific, open)
    except Refused as refused:
        if refused.number == NO_ROOM:
            raise Refused(NO_ROOM, f"the file would have over {MOST_BYTES:,} bytes") from None
        raise
    return Appended(length, ends, buffer[:ends[2]].toreadonly())


def serial_number(when: datetime | None = None, processor: Text | None = None, random: int | None = None) -> str:
    """A serial number with its check: of now in UTC, the host's name and a random number, but for what is given.

    A time without a zone is taken as UTC. A processor has at most 12 printable ASCII characters, random is 0 to 65535.

    >>> from datetime import datetime
    >>> serial_number(datetime(2024, 2, 29, 12, 34, 56, 789000), "SURVEYDESK01", 42)
    '#20240229123456789SURVEYDESK0100042001'
    """
    when = datetime.now(timezone.utc) if when is None else when
    if when.tzinfo is not None:
        when = when.astimezone(timezone.utc)
    name = _host() if processor is None else text(processor, "processor").decode("ascii", "replace")
    if len(name) > 12 or not all(" " <= each <= "~" for each in name):
        raise ValueError(f"processor must have at most 12 printable ASCII characters: {name!r}")
    number = int.from_bytes(os.urandom(2), "big") if random is None else size(random, "random")
    if number > 65535:
        raise ValueError(f"random is {number}, outside 0 to 65535")
    moment = f"{when.year:04}{when:%m%d%H%M%S}{when.microsecond // 1000:03}"
    first = f"#{moment}{name:<12}{number:05}"
    return f"{first}{sum(first.encode()) % 256:03}"


def _host() -> str:
    """The host's name as printable ASCII, at most 12 characters."""
    return "".join(each if " " <= each <= "~" else "?" for each in os.uname().nodename)[:12]
