"""Large metafiles, made quickly: of many empty chunks, and of few long ones. They rest on tests/metafile_bytes.py."""
import sys
from pathlib import Path

ROOT = Path(__file__).resolve().parents[2]
sys.path.insert(0, str(ROOT / "tests"))

from metafile_bytes import content_length, head, header, plain, serial  # noqa: E402


def numbered(row: int) -> str:
    """A serial number for each row up to 65,536,000."""
    return serial("%05d" % (row % 65536), "20240229123456%03d" % (row // 65536))


def empty_chunks(count: int) -> bytes:
    """A file of so many chunks of no bytes under LLC. Only serial number and sum differ from chunk to chunk."""
    first = numbered(0)
    chunk = plain(b"", first, b"")
    before, behind = chunk.split(first.encode())
    behind = behind[:-4]
    common = sum(before) + sum(behind)
    chunks = [header("LLC", b"")]
    for row in range(count):
        number = numbered(row).encode()
        chunks += [before, number, behind, b"%03d\n" % ((common + sum(number)) % 256)]
    return b"".join(chunks)


def long_chunks(count: int, length: int) -> bytes:
    """A file of so many chunks of so many bytes. The data are zero bytes, so that their sum needn't be taken."""
    whole = header("LLC", b"")
    for row in range(count):
        empty = plain(b"", numbered(row), b"")
        counted = content_length(length + 1)
        off = sum(counted) - sum(content_length(1))
        at = len(head())
        chunk = plain(b"", numbered(row), b"", off=off)
        assert chunk[:at + len(counted)] == empty[:at] + content_length(1)
        whole += chunk[:at] + counted + bytes(length) + chunk[at + len(counted):]
    return whole
