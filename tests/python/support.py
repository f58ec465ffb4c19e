"""What tests of the package and of the command share: paths, and files made by the library through the package."""
from __future__ import annotations

import os
import sys
from datetime import datetime
from pathlib import Path

REPOSITORY = Path(__file__).resolve().parents[2]
sys.path[:0] = [str(REPOSITORY / "python"), str(REPOSITORY / "tests")]

import ads_metafile  # noqa: E402

LIBRARY = REPOSITORY / "target" / "lib" / "libads.so.0"
SAMPLE = REPOSITORY / "crates" / "listing" / "stdin"
SAMPLE_MULTI = REPOSITORY / "samples" / "multichunk.ads"
SAMPLE_OPEN = REPOSITORY / "samples" / "open-chunk.ads"
SAMPLE_SERIAL = "#20240229123456789SURVEYDESK0100042001"

WHEN = datetime(2024, 2, 29, 12, 34, 56, 789000)
SUB_FORMAT = "ADS\\DATA\\TEST"


def serial(random: int) -> str:
    """A serial number; that of 42 is the sample file's."""
    return ads_metafile.serial_number(WHEN, "SURVEYDESK01", random)


def begun(strategy: str = "LLC", mark: bytes = b"") -> bytes:
    """A file without chunks."""
    return ads_metafile.begin(strategy=strategy, mark=mark, serial=serial(7), recorded="20240229", recorder="RECORDER",
                              written="20240301", writer="DESK")


def description(random: int = 42, **changed: object) -> ads_metafile.Description:
    """The description of a chunk: that of the sample file but for the serial number and what is changed."""
    given = {"sub_format": SUB_FORMAT, "generic_type": "TXT", "synch_type": "GEN", "time_standard": "UTC",
             "time_offset": "+0000      8.035", "event_synch": "NUL", "serial_number": serial(random),
             "recording": ("20240229", "RECORDER"), "writing": ("20240301", "DESK")}
    return ads_metafile.Description(**(given | changed))  # type: ignore[arg-type]


def made(*contents: bytes, strategy: str = "LLC", mark: bytes = b"") -> bytes:
    """A file with a chunk for each of the contents. The serial numbers are those of 42, 43 and so on; each chunk but
    the first depends on the one before."""
    data = begun(strategy, mark)
    for row, each in enumerate(contents):
        parents = [row - 1] if row else []
        data = bytes(ads_metafile.append(data, description(42 + row), each, parents=parents).data)
    return data


def many(count: int) -> bytes:
    """A file with that many chunks of 3 bytes, at most 65,536. Of one chunk of the library's, serial number and sum are
    changed: to append each would read the file as often."""
    header = begun()
    chunk = bytes(ads_metafile.append(header, description(0), b"abc").data[len(header):])
    before, rest = chunk.split(serial(0).encode())
    common = sum(before) + sum(rest[:-4])
    chunks = [header]
    for row in range(count):
        number = serial(row).encode()
        chunks += [before, number, rest[:-4], b"%03d\n" % ((common + sum(number)) % 256)]
    return b"".join(chunks)


def environment(**changed: str) -> dict[str, str]:
    """The environment of a process that imports the package of this repository."""
    return os.environ | {"PYTHONPATH": str(REPOSITORY / "python"), "PYTHONDONTWRITEBYTECODE": "1"} | changed
