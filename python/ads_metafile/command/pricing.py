"""`ads price`: the price statement of a metafile, as the library writes it, and its bytes in three parts."""
from __future__ import annotations

from argparse import Namespace

from .. import Statement
from .output import DONE, REFUSED, Earned, exact, flush, put, put_beside, put_message, shown
from .parts import whole_number
from .reading import Given, outcome, take

PARTS = ("header", "chunks", "unread")
JSON_NAMES = ("file", "rows", "total", *PARTS, "clean")
ROW_NAMES = ("row", "bytes", "cents")


def cents(text: str) -> int:
    """A rate."""
    return whole_number(text, "cents")


def run(options: Namespace, earned: Earned) -> None:
    given = take(options.file)
    statement = given.file.price(options.chunk, options.kib)
    earned.add(DONE if given.file.clean else REFUSED)
    if options.json:
        return put_json(given, statement)
    put(statement.text)
    flush()
    put_beside("\n".join(f"{part} {getattr(statement, part)}" for part in PARTS))
    if not given.file.clean:
        put_message(f"{shown(given.name)}: {outcome(given.file)}")


def put_json(given: Given, statement: Statement) -> None:
    import json
    rows = [dict(zip(ROW_NAMES, row, strict=True)) for row in statement.rows]
    parts = (getattr(statement, part) for part in PARTS)
    values = (exact(given.name), rows, statement.total, *parts, given.file.clean)
    put(json.dumps(dict(zip(JSON_NAMES, values, strict=True))) + "\n")
