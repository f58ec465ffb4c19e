"""Fields as the package takes them: the description of a chunk, a file header, and which field is out of form.

The library answers one number for all fields; which one it means is found by asking it about each field alone.
"""
from __future__ import annotations

import os
from collections.abc import Callable
from typing import TypeAlias

from .. import FORM, Description, Refused, append, begin
from .fields import GROUPS, SERIAL, TABLES, keys
from .inputs import read_input
from .output import Usage

Values: TypeAlias = dict[str, bytes]

# the methods of a description, and the fields that each takes
METHODS = {
    "sub_format": ("sub_format",),
    "generic_type": ("generic_type",),
    "synch_type": ("synch_type",),
    "time_standard": ("time_standard",),
    "alternate_standard": ("alternate_standard",),
    "time_offset": ("time_offset",),
    "event_synch": ("event_synch",),
    "slave_event": ("slave_event",),
    "master_event": ("master_event",),
    "serial_number": ("serial",),
    "recording": ("recorded", "recorder"),
    "writing": ("written", "writer"),
}
GOOD = {
    "strategy": b"LLC", "mark": b"", "sub_format": b"", "generic_type": b"TXT", "synch_type": b"GEN",
    "time_standard": b"UTC", "time_offset": b"+0000      0.000", "event_synch": b"NUL", "serial": SERIAL.encode(),
    "recorded": b"20240229", "recorder": b"", "written": b"20240229", "writer": b"",
}
MOST_SHOWN = 60


def as_bytes(values: dict[str, str]) -> Values:
    """The values' bytes; the three ways to give a mark become one."""
    made = {key: os.fsencode(value) for key, value in values.items()}
    if "mark_hex" in made:
        try:
            made["mark"] = bytes.fromhex(values["mark_hex"])
        except ValueError as error:
            raise Usage("mark_hex must be hexadecimal digits, two for each byte") from error
    if "mark_file" in made:
        made["mark"] = bytes(read_input(values["mark_file"]))
    return {key: value for key, value in made.items() if key not in ("mark_hex", "mark_file")}


def description(values: Values) -> Description:
    """The description of a chunk with these fields."""
    made = Description()
    for method, names in METHODS.items():
        if all(key in values for key in names):
            try:
                made = getattr(made, method)(*(values[key] for key in names))
            except ValueError as error:
                raise Usage(str(error)) from error
    return made


def header(values: Values) -> bytes:
    """The bytes of a file header with these fields."""
    try:
        return begin(**values)
    except ValueError as error:
        raise Usage(str(error)) from error


def chunk(values: Values) -> memoryview:
    """The bytes of a file that holds a chunk with these fields and no contents."""
    return append(header(good("header")), description(values)).data


def good(table: str) -> Values:
    """Values of the table's fields that the library takes."""
    return {key: GOOD[key] for key in keys(table) if key in GOOD}


def out_of_form(values: Values, table: str) -> str:
    """Which of the fields the library refuses with 6, and their forms, in words."""
    make = header if table == "header" else chunk
    found = [f"{field.key} is {os.fsdecode(values[field.key][:MOST_SHOWN])!r}, its form: {field.form}"
             for field in TABLES[table]
             if field.key in values and refused(make, good(table), field.key, values[field.key])]
    return "; ".join(found) or "compare the fields with `ads fields`"


def refused(make: Callable[[Values], object], others: Values, key: str, value: bytes) -> bool:
    """Whether the library finds this field, among good ones, out of form."""
    instead = {each for group in GROUPS if key in group for each in group}
    try:
        make({each: text for each, text in others.items() if each not in instead} | {key: value})
    except Refused as error:
        return error.number == FORM
    return False
