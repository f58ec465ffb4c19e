#!/usr/bin/env python3
"""The program `listing` on files that are built field by field (metafile_bytes.py), each beside the listing that the
scope paper asks for, worked out by hand. Run in the repository's folder, with crates/listing/out/listing there: it says
which text differs.

The first case is the stored input and output of crates/listing, which `rt ci` runs itself.
"""
import subprocess
import sys
from pathlib import Path

from metafile_bytes import Dependency, Type, head, header, multi, plain, serial

A, B = serial("00042"), serial("00043")
A_SPACES, B_SPACES = serial("00042", fill=" "), serial("00043", fill=" ")
MARK = b"M" * 90
SAMPLE = header("LLC", b"") + plain(b"", A, b"abc")
ONE = f"header good\nchunks 1\n0 319 568 3 good {A}\n"

OPEN = header("NUL", MARK) + plain(MARK, A, b"12345", is_open=True)
MULTI = header("LLC", b"") + multi(b"", A, [Type("P2/91", "ADS\\DATA\\DEPTH")], [("P2/91", b"12345"), ("P2/91", b"")])
SUMS = header("LLC", b"", off=1) + plain(b"", A, b"abc", off=1)
STARS = b"****"
PADDED = (header("NUL", STARS, fill=" ")
          + plain(STARS, A_SPACES, b"line 7 begun\n", head(fill=" "), is_open=True, fill=" ")
          + multi(STARS, B_SPACES, [Type("P2/91", "ADS\\DATA\\DEPTH")], [("P2/91", b"12345"), ("P2/91", b"")],
                  [Dependency(A, "ADS\\DATA\\TEST")], " "))

CASES: dict[str, tuple[bytes, str]] = {
    # the paper's example
    "sample": (SAMPLE, ONE + "end 1178 0\n"),
    # "Its slip is "header none", "chunks 0", "end 0 0", each on its line."
    "no-bytes": (b"", "header none\nchunks 0\nend 0 0\n"),
    # one byte is a header cut short
    "one-byte": (b"F", "header bad\nchunks 0\nend 0 4\n"),
    # "A longer input prints only "end 0 11"."
    "long": (b"0" * 65537, "end 0 11\n"),
    # a mark of 90 bytes: the header has 499 bytes, the open chunk 568 + 34 + 5 of data + 90 + 254 + 90
    "open": (OPEN, f"header good\nchunks 1\n0 499 568 5 good {A}\nend 1540 0\n"),
    # contents of 65 + 518 + (32 + 5) + (32 + 0) bytes, the chunk 568 + 652 + 254
    "multi": (MULTI, f"header good\nchunks 1\n0 319 568 652 good {A}\nend 1793 0\n"),
    # both sums are wrong by one; a bad sum is no refusal
    "sums": (SUMS, f"header bad\nchunks 1\n0 319 568 3 bad {A}\nend 1178 0\n"),
    # every length, count and check with spaces in front: the serial numbers are printed as they stand. A mark of 4 bytes:
    # the header has 327, the open chunk 568 + 34 + 13 + 262, the MultiChunk 568 + 344 + 652 + 262
    "padded": (PADDED, f"header good\nchunks 2\n0 327 568 13 good {A_SPACES}\n1 1204 912 652 good {B_SPACES}\nend 3030 0\n"),
    # a serial number is the same whatever its check is written as
    "other-check": (SAMPLE + plain(b"", A_SPACES, b"xyz"), ONE + "end 1178 9\n"),
    # spaces behind the digits
    "spaces-behind": (SAMPLE[:339] + b"536         " + SAMPLE[351:], "header good\nchunks 0\nend 319 6\n"),
    # "9 whole chunk, serial already in a row"
    "repeated": (SAMPLE + plain(b"", A, b"xyz"), ONE + "end 1178 9\n"),
    # two chunks, the second cut inside a field: 4 at the end of the first
    "cut": (SAMPLE + plain(b"", B, b"xyz")[:-1], ONE + "end 1178 4\n"),
}


def main() -> int:
    wrong = 0
    stored = Path("crates/listing")
    if ((stored / "stdin").read_bytes(), (stored / "stdout").read_text(encoding="ascii")) != CASES["sample"]:
        wrong += 1
        print("crates/listing: its stored input or output isn't the first case")
    for name, (given, asked) in CASES.items():
        answer = subprocess.run(["crates/listing/out/listing"], input=given, stdout=subprocess.PIPE, check=True).stdout
        if answer != asked.encode("ascii"):
            wrong += 1
            print(f"{name}: the program prints {answer!r}, asked is {asked!r}")
    if not wrong:
        print(f"the listing program prints what is asked, on {len(CASES)} files")
    return 1 if wrong else 0


if __name__ == "__main__":
    sys.exit(main())
