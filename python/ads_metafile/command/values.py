"""The values of fields, from a TOML file and from options, with what stands for itself filled in."""
from __future__ import annotations

import datetime
from argparse import Namespace
from typing import Any

from .. import serial_number
from ..disk import DiskError, words_of
from .fields import DATES, GROUPS, TABLES, keys
from .output import Usage, shown


def values(options: Namespace, table: str) -> dict[str, str]:
    """The values of a table's fields. The writing fields are the recording ones where they aren't given."""
    given = read_table(options.fields, table) if options.fields is not None else {}
    given = overridden(given, {key: value for key in keys(table) if (value := getattr(options, key)) is not None})
    check_given(given, table)
    given = {"written": given["recorded"], "writer": given["recorder"]} | given
    return {key: filled_in(key, value) for key, value in given.items()}


def overridden(given: dict[str, str], options: dict[str, str]) -> dict[str, str]:
    """The file's values under those of options; one of a group takes the place of the others."""
    dropped = {key for group in GROUPS if set(group) & options.keys() for key in group}
    return {key: value for key, value in given.items() if key not in dropped} | options


def check_given(given: dict[str, str], table: str) -> None:
    """Each field has its value, and none has two."""
    for group in GROUPS:
        both = [key for key in group if key in given]
        if len(both) > 1:
            raise Usage(f"only one of {', '.join(both)} can be given")
    missing = [field.key for field in TABLES[table] if not field.optional and field.key not in given
               and not any(field.key in group and set(group) & given.keys() for group in GROUPS)]
    if missing:
        raise Usage(f"fields are missing: {', '.join(missing)}; give them as options or in --fields TOML (`ads fields` "
                    "prints a template)")


def filled_in(key: str, value: str) -> str:
    """The value with `auto` and `today` made, a date's dashes taken out, an offset's seconds padded."""
    if key == "serial" and value == "auto":
        return serial_number()
    if key in DATES:
        if value == "today":
            value = datetime.datetime.now(datetime.timezone.utc).date().isoformat()
        return value.replace("-", "") if len(value) == 10 and value[4] == value[7] == "-" else value
    if key == "time_offset" and 5 < len(value) < 16:
        return value[:5] + value[5:].rjust(11)
    return value


def read_table(path: str, table: str) -> dict[str, str]:
    """A table of a TOML file. Keys that aren't known are named."""
    import tomllib
    try:
        with open(path, "rb") as file:
            tables = tomllib.load(file)
    except OSError as error:
        raise DiskError(path, words_of(error)) from error
    except ValueError as error:
        raise Usage(f"{shown(path)}: isn't TOML: {error}") from error
    check_keys(path, "the file", tables, list(TABLES))
    for name, found in tables.items():
        if not isinstance(found, dict):
            raise Usage(f"{shown(path)}: {name} must be a table, [{name}]")
        check_keys(path, f"[{name}]", found, keys(name))
    if table not in tables:
        raise Usage(f"{shown(path)}: has no table [{table}]; `ads fields` prints a template")
    return {key: as_text(path, key, value) for key, value in tables[table].items()}


def check_keys(path: str, where: str, found: dict[str, Any], known: list[str]) -> None:
    unknown = [shown(key) for key in found if key not in known]
    if unknown:
        raise Usage(f"{shown(path)}: unknown in {where}: {', '.join(unknown)}; known are {', '.join(known)}")


def as_text(path: str, key: str, value: Any) -> str:
    """A value of the TOML file: a text, or for a date also TOML's own date."""
    if isinstance(value, str):
        return value
    if key in DATES and type(value) is datetime.date:
        return value.isoformat()
    raise Usage(f"{shown(path)}: {key} must be a text in quotes")
