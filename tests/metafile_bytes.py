"""ADS metafiles put together field by field, from docs/FORMAT.md alone: no library is asked.

`header` gives a file header, `plain` and `multi` give a chunk; a file is these joined. Nothing is judged: a value out
of form is put as given, so that damaged files can be made too. `fill` is what stands in front of lengths, counts and
checks: zeros, or the spaces of older recorders. `left` is what a power failure leaves of an append.
"""
from collections.abc import Collection, Sequence
from typing import NamedTuple

BLOCK = 512


def count(value: int, width: int, fill: str = "0") -> str:
    """A length, a count or a check in so many bytes."""
    return str(value).rjust(width, fill)


def serial(random: str, moment: str = "20240229123456789", processor: str = "SURVEYDESK01", fill: str = "0") -> str:
    """A serial number; its check is the sum of the 35 bytes before it."""
    first = "#" + moment + processor + random
    return first + count(sum(first.encode("ascii")) % 256, 3, fill)


def line(label: str, value: str) -> bytes:
    return f"{label}={value}\n".encode("ascii")


def closed(summed: bytes, mark: bytes, number: str, off: int = 0, fill: str = "0", written: str = "20240301") -> bytes:
    """Bytes and their closing: mark, integrity data, mark. The sum is wrong by `off`."""
    summed += mark
    summed += line("Chunk_Serial_Number", number)
    summed += line("Chunk_Recording_Date", "20240229")
    summed += line("Chunk_Recording_Agent", "RECORDER".ljust(32))
    summed += line("Chunk_Writing_Date", written)
    summed += line("Chunk_Writing_Agent", "DESK".ljust(32))
    summed += b"Chunk_Integrity_Checksum="
    return summed + count((sum(summed) + off) % 256, 3, fill).encode("ascii") + b"\n" + mark


def header(strategy: str, mark: bytes, off: int = 0, fill: str = "0") -> bytes:
    """A file header."""
    title = line("Format_ID", "Ancillary Data Standard 1.00")
    title += line("Separator_Strategy", strategy + count(len(mark), 3, fill))
    return closed(title, mark, serial("00007", fill=fill), off, fill)


def times(synch: str = "GEN", standard: str = "UTC", offset: str = "+0000      8.035", event: str = "NUL") -> bytes:
    """The four time and event lines. A serial number follows ALT, SLV and MAS without a space."""
    return (line("Chunk_Time_Synch_Type", synch) + line("Chunk_Time_Standard", standard.ljust(41))
            + line("Chunk_Time_Offset", offset) + line("Chunk_Event_Synch", event.ljust(41)))


class Dependency(NamedTuple):
    """A parent, by its serial number and sub-format."""
    serial: str
    sub_format: str


def head(sub_format: str = "ADS\\DATA\\TEST", generic: str = "TXT", when: bytes = times(),
         parents: Sequence[Dependency] = (), specific: bytes = b"", fill: str = "0") -> bytes:
    """A chunk's header."""
    lengths = 344 * len(parents)
    lines = line("Chunk_Header_Length", count(536 + lengths + len(specific), 12, fill))
    lines += line("SubFormat_ID", sub_format.ljust(256)) + line("Generic_Type", generic) + when
    lines += line("Chunk_Dependency_Length", count(29 + lengths, 12, fill))
    lines += line("Chunk_Dependency_Count", count(len(parents), 4, fill))
    for parent in parents:
        lines += line("Dependency_Serial_Number", parent.serial)
        lines += line("Dependency_SubFormatID", parent.sub_format.ljust(256))
    return lines + specific


def content_length(value: int, fill: str = "0") -> bytes:
    return line("Chunk_Content_Length", count(value, 12, fill))


def plain(mark: bytes, number: str, data: bytes, chunk_header: bytes = head(), is_open: bool = False,
          off: int = 0, fill: str = "0", written: str = "20240301") -> bytes:
    """A chunk with plain contents, counted or open."""
    length = content_length(0 if is_open else len(data) + 1, fill)
    return closed(chunk_header + length + data, mark, number, off, fill, written)


class Type(NamedTuple):
    """A type of mini-chunks."""
    short_id: str
    sub_format: str
    when: bytes = times()
    specific: bytes = b""


def type_header(of: Type, fill: str = "0") -> bytes:
    lines = line("SubType_Header_Length", count(484 + len(of.specific), 12, fill))
    lines += line("SubFormat_ID", of.sub_format.ljust(256)) + line("SubFormat_Short_ID", of.short_id.ljust(10))
    return lines + of.when + of.specific


def mini(short_id: str, data: bytes, fill: str = "0") -> bytes:
    return ("MiniChunk=" + short_id.ljust(10) + count(len(data), 12, fill)).encode("ascii") + data


def multi(mark: bytes, number: str, types: Sequence[Type], minis: Sequence[tuple[str, bytes]],
          parents: Sequence[Dependency] = (), fill: str = "0") -> bytes:
    """A MultiChunk."""
    headers = b"".join(type_header(of, fill) for of in types)
    lines = line("Multi_Chunk_Header_Length", count(27 + len(headers), 12, fill))
    lines += line("MiniChunk_Type_Count", count(len(types), 4, fill))
    data = b"".join(mini(short_id, part, fill) for short_id, part in minis)
    chunk_header = head("ADS\\SYS\\MultiChunk", parents=parents, fill=fill)
    return closed(chunk_header + lines + headers + data, mark, number, fill=fill)


def writes(chunk: bytes, data: bytes, mark: bytes) -> list[bytes]:
    """The three writes of an append: header with content length line, data, closing."""
    closing = len(chunk) - 254 - 2 * len(mark)
    first = closing - len(data)
    return [chunk[:first], chunk[first:closing], chunk[closing:]]


def left(old: bytes, parts: Sequence[bytes], cut: int, kept: int, lost: Collection[int] = ()) -> bytes:
    """What stands after power fails in write `cut`, counted from 0: `kept` bytes of it, zeros in the lost blocks."""
    whole = old + b"".join(parts[:cut])
    places = enumerate(parts[cut][:kept], len(whole))
    return whole + bytes(0 if place // BLOCK in lost else byte for place, byte in places)
