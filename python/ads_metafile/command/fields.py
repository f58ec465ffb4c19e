"""The fields of a chunk and of a file header: one list for options, the template of `ads fields`, and hints.

Values come from the tables [chunk] and [header] of a TOML file, and from options, which override it. Which of them must
be there is said here; their forms are judged by the library.
"""
from __future__ import annotations

from argparse import ArgumentParser
from typing import NamedTuple

DATE_FORM = "year, month and day, such as 20240229; `today` is today's date in UTC"
AGENT_FORM = "at most 32 printable ASCII characters"
SERIAL = "#20240229123456789SURVEYDESK0100042001"


class Field(NamedTuple):
    """A key of the TOML file and option of the command, its label in the metafile, its form, an example."""

    key: str
    value: str
    label: str
    form: str
    example: str
    optional: bool = False

    @property
    def option(self) -> str:
        return "--" + self.key.replace("_", "-")


INTEGRITY = (
    Field("serial", "SERIAL", "Chunk_Serial_Number", "38 characters: '#', date, hour, minute, second, millisecond, "
          "processor, random, check; `auto` makes a new one", "auto"),
    Field("recorded", "DATE", "Chunk_Recording_Date", DATE_FORM, "20240229"),
    Field("recorder", "NAME", "Chunk_Recording_Agent", AGENT_FORM, "RECORDER"),
    Field("written", "DATE", "Chunk_Writing_Date", f"{DATE_FORM}; if not given, the recording date", "20240301", True),
    Field("writer", "NAME", "Chunk_Writing_Agent", f"{AGENT_FORM}; if not given, the recording agent", "DESK", True),
)
CHUNK = (
    Field("sub_format", "TEXT", "SubFormat_ID", "at most 256 printable ASCII characters", "ADS\\DATA\\TEST"),
    Field("generic_type", "WORD", "Generic_Type", "BIN or TXT", "TXT"),
    Field("synch_type", "WORD", "Chunk_Time_Synch_Type", "GEN or SPE", "GEN"),
    Field("time_standard", "WORD", "Chunk_Time_Standard", "UTC or NUL", "UTC"),
    Field("alternate_standard", "SERIAL", "Chunk_Time_Standard", "ALT with this serial number, instead of "
          "time_standard", SERIAL, True),
    Field("time_offset", "OFFSET", "Chunk_Time_Offset", "sign, two digits each for hours to 23 and minutes to 59, "
          "seconds below 60 with at most one point in 11 characters; shorter seconds get spaces before them",
          "+00008.035"),
    Field("event_synch", "WORD", "Chunk_Event_Synch", "NUL", "NUL"),
    Field("slave_event", "SERIAL", "Chunk_Event_Synch", "SLV with this serial number, instead of event_synch", SERIAL,
          True),
    Field("master_event", "SERIAL", "Chunk_Event_Synch", "MAS with this serial number, instead of event_synch", SERIAL,
          True),
) + INTEGRITY
HEADER = (
    Field("strategy", "WORD", "Separator_Strategy", "LLC or NUL", "LLC"),
    Field("mark", "TEXT", "separator mark", "text of at most 999 bytes, none of them zero, that doesn't begin with "
          "MiniChunk=; NUL needs one", "--- next chunk ---", True),
    Field("mark_hex", "DIGITS", "separator mark", "the bytes as hexadecimal digits, instead of mark", "2d2d2d0a", True),
    Field("mark_file", "FILE", "separator mark", "all bytes of this file, instead of mark", "mark.bin", True),
) + INTEGRITY
TABLES = {"chunk": CHUNK, "header": HEADER}

# at most one of each group is given
GROUPS = (("time_standard", "alternate_standard"), ("event_synch", "slave_event", "master_event"),
          ("mark", "mark_hex", "mark_file"))
DATES = ("recorded", "written")


def keys(table: str) -> list[str]:
    return [field.key for field in TABLES[table]]


def add_options(parser: ArgumentParser, table: str) -> None:
    """Gives the parser --fields and an option for each field of the table."""
    group = parser.add_argument_group("fields")
    group.add_argument("--fields", metavar="TOML", help=f"take them from the table [{table}] of this file, as "
                       "`ads fields` prints it; options override it")
    for field in TABLES[table]:
        group.add_argument(field.option, metavar=field.value, help=f"{field.label}: {field.form}")


def template() -> str:
    """A commented TOML file of every field; its values are an example that can be appended."""
    from textwrap import wrap
    lines = ["# Fields for `ads append FILE --fields THIS --contents DATA` ([chunk]) and for `ads begin FILE --fields",
             "# THIS` ([header]). Options override what stands here. In single quotes a backslash is itself."]
    for table, fields in TABLES.items():
        lines += ["", f"[{table}]"]
        for field in fields:
            lines += wrap(f"{field.label}: {field.form}", 110, initial_indent="# ", subsequent_indent="#     ")
            unused = field.optional and any(field.key in group for group in GROUPS)
            lines.append(f"{'#' if unused else ''}{field.key} = '{field.example}'")
    return "\n".join(lines) + "\n"
