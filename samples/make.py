"""Makes the sample files of this folder: `python3 samples/make.py`. README.md says what each is.

The bytes come from tests/metafile_bytes.py, which asks no library; a damaged sample is a good one with one change.
tests/python/test_samples.py holds the files to `samples`.
"""
import sys
from pathlib import Path

FOLDER = Path(__file__).resolve().parent
sys.dont_write_bytecode = True
sys.path.insert(0, str(FOLDER.parent / "tests"))

from metafile_bytes import (Dependency, Type, content_length, head, header, left, multi, plain, serial,  # noqa: E402
                            times, writes)

FIRST, SECOND, THIRD, FOURTH, EVENTS, CLOCK, ELSEWHERE = (serial("%05d" % random) for random in range(42, 49))
MARK = b"\n--- separator mark ---\n"
DEPTH = Type("P2/91", "ADS\\DATA\\DEPTH")


def changed(file: bytes, old: bytes, new: bytes, which: int = 0) -> bytes:
    """The file with one of the places where `old` stands, counted from 0, changed to `new`."""
    place = -1
    for _ in range(which + 1):
        place = file.index(old, place + 1)
    return file[:place] + new + file[place + len(old):]


def one_chunk() -> bytes:
    return header("LLC", b"") + plain(b"", FIRST, b"abc")


def two_chunks() -> bytes:
    child = head("ADS\\DATA\\EDIT", parents=[Dependency(FIRST, "ADS\\DATA\\TEST")])
    return one_chunk() + plain(b"", SECOND, b"edited\n", child)


def open_chunk(found: bytes = b"M" * 90) -> bytes:
    """An open chunk, with the header's mark of 90 bytes or another one behind its data."""
    return header("NUL", b"M" * 90) + plain(found, FIRST, b"12345", is_open=True)


def multichunk() -> bytes:
    return header("LLC", b"") + multi(b"", FIRST, [DEPTH], [("P2/91", b"12345"), ("P2/91", b"")])


def survey() -> bytes:
    """Four chunks under NUL: a master event sequence, an open log, a MultiChunk, and one with everything else."""
    shots = head("ADS\\DATA\\SHOTS", when=times(event="MAS" + EVENTS))
    log = head("ADS\\DATA\\LOG", when=times(standard="NUL", event="SLV" + EVENTS),
               parents=[Dependency(FIRST, "ADS\\DATA\\SHOTS")])
    gyro = Type("GYRO", "ADS\\DATA\\GYRO", times(standard="ALT" + CLOCK), b"rate 1 Hz\n")
    types = [DEPTH, gyro, Type("SPARE", "UNKNOWN\\SPARE")]
    minis = [("P2/91", b"12.5\n"), ("GYRO", b"181.0\n181.1\n"), ("P2/91", b"12.7\n"), ("GYRO", b"")]
    parents = [Dependency(FIRST, "ADS\\DATA\\SHOTS"), Dependency(SECOND, "ADS\\DATA\\SHOTS"),
               Dependency(ELSEWHERE, "ADS\\DATA\\GRID")]
    bins = head("ADS\\DATA\\BINS", "BIN", times("SPE", "ALT" + CLOCK, "-0130   30.5    "), parents, b"ticks of 2 ms")
    return (header("NUL", MARK)
            + plain(MARK, FIRST, b"1001 12:34:56.789\n1002 12:35:06.812\n", shots)
            + plain(MARK, SECOND, b"line 7 begun\n", log, is_open=True)
            + multi(MARK, THIRD, types, minis)
            + plain(MARK, FOURTH, bytes(range(16)) + MARK + bytes(8), bins))


def padded() -> bytes:
    """What an older recorder wrote: spaces for all zeros in front of lengths, counts and checks."""
    first, second = serial("00042", fill=" "), serial("00043", fill=" ")
    return (header("NUL", b"****", fill=" ")
            + plain(b"****", first, b"line 7 begun\n", head(fill=" "), is_open=True, fill=" ")
            + multi(b"****", second, [DEPTH], [("P2/91", b"12345"), ("P2/91", b"")],
                    [Dependency(FIRST, "ADS\\DATA\\TEST")], " "))


def relation(*fields: str) -> str:
    """A line of a relation chunk: serial number and sub-format of the child, and of the parent."""
    child, child_format, parent, parent_format = fields
    return "\t".join(("ADS relation", child, child_format.ljust(256), parent, parent_format.ljust(256)))


TEST, EDIT, GRID = "ADS\\DATA\\TEST", "ADS\\DATA\\EDIT", "ADS\\DATA\\GRID"

# lines on the second chunk: two that its header declares, one that it doesn't, and one without its last tab, as
# chapter 7 prints it
ON_FIRST, ON_ELSEWHERE = relation(SECOND, EDIT, FIRST, TEST), relation(SECOND, EDIT, ELSEWHERE, GRID)
UNDECLARED = relation(SECOND, EDIT, FIRST, GRID)
MALFORMED = ON_FIRST.replace(FIRST + "\t", FIRST)


def child_and_parent() -> bytes:
    """Two chunks; the second depends on the first, and on one that isn't there."""
    child = head(EDIT, parents=[Dependency(FIRST, TEST), Dependency(ELSEWHERE, GRID)])
    return one_chunk() + plain(b"", SECOND, b"edited\n", child)


def relation_chunk(number: str, lines: list[str], written: str = "20240301") -> bytes:
    """A relation chunk of that writing date: the heading and these lines."""
    heading = ("ADS Metafile Master Relation Chunk Revision 1.00", "Child serial number", "Child sub-format ID",
               "Parent serial number", "Parent sub-format ID")
    text = "".join(line + "\n" for line in ("\t".join(heading), *lines)).encode("ascii")
    return plain(b"", number, text, head("ADS\\SYS\\Relations"), written=written)


def relations() -> bytes:
    """A relation chunk with a comment and each kind of line."""
    lines = ["line 7, by the recorder", ON_FIRST, ON_ELSEWHERE, UNDECLARED, MALFORMED]
    return child_and_parent() + relation_chunk(THIRD, lines)


def relations_dated() -> bytes:
    """Four relation chunks: of the two with the latest date the later one holds, and it isn't the last."""
    chunks = [(THIRD, [UNDECLARED], "20240302"), (FOURTH, [ON_FIRST], "20240304"),
              (serial("00049"), [ON_FIRST, ON_ELSEWHERE], "20240304"), (serial("00050"), [MALFORMED], "20240303")]
    return child_and_parent() + b"".join(relation_chunk(*chunk) for chunk in chunks)


def family(*chunks: tuple[str, tuple[int, ...]]) -> bytes:
    """A chunk for each sub-format, with the chunks of these numbers as its parents; -1 is one that isn't there."""
    known = [Dependency(serial("%05d" % (50 + row)), "ADS\\DATA\\" + name) for row, (name, _) in enumerate(chunks)]
    known.append(Dependency(ELSEWHERE, GRID))
    return header("LLC", b"") + b"".join(
        plain(b"", known[row].serial, name.encode("ascii"),
              head(known[row].sub_format, parents=[known[each] for each in parents]))
        for row, (name, parents) in enumerate(chunks))


def ancestors() -> bytes:
    """A chain, a diamond, a chunk beside them, and a missing parent that two name."""
    return family(("SHOTS", ()), ("LOG", ()), ("TRACES", (0,)), ("EDIT", (2,)), ("FILTER", (2, -1)),
                  ("STACK", (3, 4, -1)))


def circle() -> bytes:
    """Two chunks that depend on each other, one that depends on them, and one that doesn't."""
    return family(("SHOTS", ()), ("EDIT", (2,)), ("FILTER", (1, 0)), ("STACK", (1,)))


def stray_byte() -> bytes:
    """What a price statement tells apart: contents of 0, 1, 1,024 and 1,025 bytes, a bad sum, a MultiChunk; and one
    byte behind them."""
    numbers = [serial("%05d" % random) for random in range(42, 48)]
    return (header("LLC", b"")
            + b"".join(plain(b"", number, b"x" * length) for number, length in zip(numbers, (0, 1, 1024, 1025)))
            + plain(b"", numbers[4], b"abc", off=1)
            + multi(b"", numbers[5], [DEPTH], [("P2/91", b"12345"), ("P2/91", b"")])
            + b"\n")


def good() -> dict[str, bytes]:
    """Clean files, of two of them a sum is bad; and a file of no bytes, which reads with 0 and isn't clean."""
    return {
        "one-chunk": one_chunk(),
        "two-chunks": two_chunks(),
        "open-chunk": open_chunk(),
        "multichunk": multichunk(),
        "survey": survey(),
        "padded": padded(),
        "relations": relations(),
        "relations-dated": relations_dated(),
        "ancestors": ancestors(),
        "circle": circle(),
        "begun": header("LLC", b""),
        "bad-chunk-sum": header("LLC", b"") + plain(b"", FIRST, b"abc", off=1),
        "bad-header-sum": header("LLC", b"", off=1) + plain(b"", FIRST, b"abc"),
        "no-bytes": b"",
    }


def damaged_header() -> dict[str, bytes]:
    begun = header("LLC", b"")
    return {
        "damaged-01-title": changed(begun, b"1.00", b"2.00"),
        "damaged-01-text-mode": begun.replace(b"\n", b"\r\n"),
        "damaged-02-tape": header("NUL", b""),
        "damaged-03-mark-minichunk": header("LLC", b"MiniChunk=MARK"),
        "damaged-04-header-cut": begun[:200],
        "damaged-06-header-checksum": changed(begun, b"Checksum=077", b"Checksum=256"),
    }


def damaged_chunk() -> dict[str, bytes]:
    one = one_chunk()
    return {
        "damaged-04-cut": two_chunks()[:1178 + 600],
        "damaged-04-open-mark": open_chunk(b"M" * 89 + b"N"),
        "damaged-04-stray-byte": stray_byte(),
        "damaged-05-label": changed(one, b"SubFormat_ID=", b"Subformat_ID="),
        "damaged-05-word": changed(one, b"Generic_Type=TXT", b"Generic_Type=ASC"),
        "damaged-05-content-length": changed(one, content_length(4), content_length(3)),
        "damaged-05-stray-bytes": one + b"end of the tape copy\n",
        "damaged-06-date": changed(one, b"Recording_Date=20240229", b"Recording_Date=20230229", 1),
        "damaged-06-serial": changed(one, FIRST.encode(), FIRST.encode()[:-1] + b"2"),
        "damaged-06-spaces": changed(one, b"Header_Length=000000000536", b"Header_Length=536         "),
        "damaged-07-header-length": changed(one, b"Header_Length=000000000536", b"Header_Length=000000000535"),
        "damaged-07-content-length": changed(one, content_length(4), content_length(0)),
        "damaged-09-repeated": one + plain(b"", FIRST, b"xyz"),
        "damaged-09-other-check": one + plain(b"", serial("00042", fill=" "), b"xyz"),
    }


def damaged_multichunk() -> dict[str, bytes]:
    start, data = header("LLC", b""), [("P2/91", b"12345")]
    return {
        "damaged-08-undeclared": start + multi(b"", FIRST, [DEPTH], data + [("P2/94", b"67890")]),
        "damaged-08-twice": start + multi(b"", FIRST, [DEPTH, DEPTH], data),
        "damaged-08-no-minichunk": start + multi(b"", FIRST, [DEPTH], []),
    }


def power_failures() -> dict[str, bytes]:
    """What is left of an append of 200 bytes to one-chunk.ads: its writes end at 1,780, 1,980 and 2,234."""
    old, data = one_chunk(), b"0123456789" * 20
    parts = writes(plain(b"", SECOND, data), data, b"")
    return {
        "damaged-04-power-in-data": left(old, parts, 1, 120),
        "damaged-05-power-in-header": left(old, parts, 0, 602, {3}),
        "damaged-05-power-in-closing": left(old, parts, 2, 254, {3}),
    }


def block(number: int, data: bytes) -> bytes:
    """A block of a packed file: number, use, data, and their sum."""
    summed = number.to_bytes(4, "big") + len(data).to_bytes(2, "big") + data.ljust(504, b"\0")
    return summed + (sum(summed) % 65536).to_bytes(2, "big")


def packed(file: bytes) -> bytes:
    """The packed file of any bytes."""
    return b"".join(block(place // 504, file[place:place + 504]) for place in range(0, max(len(file), 1), 504))


def samples() -> dict[str, bytes]:
    """Every sample file: name and bytes."""
    made = good() | damaged_header() | damaged_chunk() | damaged_multichunk() | power_failures()
    return {name + ".ads": made[name] for name in sorted(made)}


def in_blocks() -> dict[str, bytes]:
    """The damaged copy of a packed file, its second block zeros: name and bytes."""
    blocks = packed(one_chunk())
    return {"damaged-28-lost-block.blocks": blocks[:512] + bytes(512) + blocks[1024:]}


if __name__ == "__main__":
    for file_name, file_bytes in (samples() | in_blocks()).items():
        (FOLDER / file_name).write_bytes(file_bytes)
