"""`ads begin`, `ads append` and `ads fields`: fields from options and a TOML file, bytes from the library, the disk."""
from __future__ import annotations

import os
from argparse import ArgumentTypeError, Namespace

from .. import (FORM, MARK_MINI, MARK_ZERO, MULTICHUNK, NO_ROOM, NO_ROW, NOT_CLEAN, OPEN, REPEATED, TAPE, Refused,
                read)
from ..disk import DiskError, LockedFile, create, hold_signals, locked, prepare, write
from .describing import Values, as_bytes, description, header, out_of_form
from .fields import template
from .inputs import read_input
from .output import Earned, Usage, flush, put, shown
from .reading import rows_there, stops
from .values import values

BEGIN_HINTS = {
    TAPE: "a file on disk needs a mark with NUL; give --mark, --mark-hex or --mark-file",
    MARK_MINI: "give a mark that doesn't begin with MiniChunk=",
    MARK_ZERO: "give a mark without a zero byte",
}
APPEND_HINTS = {
    MARK_ZERO: "nothing can be appended to this file, for a cut append couldn't be told from a whole one",
    OPEN: "append it without --open",
    MULTICHUNK: "MultiChunks are only read",
    NO_ROOM: "the file would have more than 2^30 bytes, which can't be read; begin another file",
}
NO_FILE_YET = "only `ads begin` starts a file, under a name that is free"


def seconds(text: str) -> float:
    """A time to wait, 0 or more."""
    try:
        given = float(text)
    except ValueError:
        given = -1.0
    if not given >= 0:
        raise ArgumentTypeError(f"{text!r} isn't a number of seconds, 0 or more")
    return given


def run_fields(options: Namespace, earned: Earned) -> None:
    put(template())


def run_begin(options: Namespace, earned: Earned) -> None:
    given = as_bytes(values(options, "header"))
    try:
        data = header(given)
    except Refused as error:
        hint = out_of_form(given, "header") if error.number == FORM else BEGIN_HINTS.get(error.number)
        raise Refused(error.number, hint) from error
    hold_signals()
    create(options.file, data)
    put_done(f"{shown(options.file)} begun: {len(data):,} bytes, serial {os.fsdecode(given['serial'])}")


def run_append(options: Namespace, earned: Earned) -> None:
    if options.contents == options.specific == "-":
        raise Usage("only one of --contents and --specific can be standard input")
    given = as_bytes(values(options, "chunk"))
    described = description(given)
    contents = read_input(options.contents)
    specific = b"" if options.specific is None else read_input(options.specific)
    with locked(options.file, options.wait) as file:
        try:
            prepared = prepare(file, described, contents, parents=options.parent, specific=specific, open=options.open)
        except Refused as error:
            raise Refused(error.number, append_hint(error.number, file, given)) from error
        hold_signals()
        write(file, prepared)
    put_done(f"row {prepared.row:,} appended: {prepared.old:,} to {prepared.ends[2]:,}, serial "
             f"{os.fsdecode(given['serial'])}")


def put_done(said: str) -> None:
    """Prints what was done. Where that fails it is done all the same, and the message says so."""
    try:
        put(said + "\n")
        flush()
    except DiskError as error:
        raise DiskError(error.path, f"{error.words}; but it is done: {said}") from error


def append_hint(number: int, file: LockedFile, given: Values) -> str | None:
    """What the user can do."""
    if number == FORM:
        return out_of_form(given, "chunk")
    if number == NOT_CLEAN:
        done = f"`ads cut-back {shown(file.path)}` shows what stands behind the stop" if file.length else NO_FILE_YET
        return f"{stops(read(file.read()))}; {done}"
    if number == NO_ROW:
        return f"parents are at most 16 different rows; {rows_there(read(file.read()))}"
    if number == REPEATED:
        row = read(file.read()).by_serial(given["serial"])
        return f"row {row.index:,} has {row.serial}; give another one, or --serial auto"
    return APPEND_HINTS.get(number)
