r"""SEG-UKOOA ADS metafiles 1.00: the table of chunks, over the proved library libads.

What is right in the bytes, the library alone says; this package, which isn't proved, lends it bytes and shows what it
answers. The library is found by the environment variable ADS_LIBRARY (its path), beside the package, in the checkout
that the package is part of, or by the loader.

>>> import ads_metafile
>>> data = ads_metafile.begin(strategy="NUL", mark=b"****", serial=ads_metafile.serial_number(), recorded="20240229",
...     recorder="RECORDER", written="20240301", writer="DESK")
>>> description = ads_metafile.Description(sub_format="ADS\\DATA\\TEST", generic_type="TXT", synch_type="GEN",
...     time_standard="UTC", time_offset="+0000      8.035", event_synch="NUL",
...     serial_number="#20240229123456789SURVEYDESK0100042001",
...     recording=("20240229", "RECORDER"), writing=("20240301", "DESK"))
>>> finished = ads_metafile.append(data, description, b"abc").data
>>> with ads_metafile.read(finished) as file:
...     file.clean, file.number, len(file)
...     for row in file:
...         row.serial, row.place, row.bytes, row.good, bytes(row.contents)
(True, 0, 1)
('#20240229123456789SURVEYDESK0100042001', 327, 3, True, b'abc')
>>> ads_metafile.append(finished, description)
Traceback (most recent call last):
ads_metafile._numbers.Refused: refused with 9 (the serial number is already in a row)
"""
from ._ancestors import Ancestry
from ._blocks import pack, unpack
from ._file import Dependency, File, Parent
from ._library import MOST_BYTES
from ._numbers import (BLOCK_NUMBER, BLOCK_SUM, BLOCK_USE, CIRCLE, CUT, DIFFERS, FORM, HEADING, LENGTH, LIMIT,
                       MARK_MINI, MARK_ZERO, MULTICHUNK, NAMES, NO_DEPENDENCY, NO_ROOM, NO_ROW, NOT_CLEAN,
                       NOT_RELATIONS, OK, OPEN, REPEATED, ROWS_FULL, ROWS_OVER_64, SHORT_ID, TAPE, TITLE, TOTAL, WORDS,
                       Refused)
from ._opening import open, read
from ._pricing import PricedRow, Statement
from ._relations import Checked, Verdict
from ._rows import Ending, Row, most_rows
from ._writing import Appended, Description, append, append_into, begin, room_for, serial_number

__version__ = "0.10.0"

__all__ = [
    "open", "read", "File", "Row", "Ending", "Parent", "Dependency", "Ancestry", "Verdict", "Checked", "Statement",
    "PricedRow", "begin", "append", "append_into", "room_for", "serial_number", "Description", "Appended", "pack",
    "unpack", "Refused", "NAMES", "WORDS", "MOST_BYTES", "most_rows", "OK", "TITLE", "TAPE", "MARK_MINI", "CUT",
    "DIFFERS", "FORM", "LENGTH", "SHORT_ID", "REPEATED", "ROWS_FULL", "LIMIT", "NOT_CLEAN", "NO_ROW", "NO_DEPENDENCY",
    "MARK_ZERO", "OPEN", "MULTICHUNK", "NO_ROOM", "NOT_RELATIONS", "HEADING", "TOTAL", "CIRCLE", "ROWS_OVER_64",
    "BLOCK_SUM", "BLOCK_NUMBER", "BLOCK_USE",
]
