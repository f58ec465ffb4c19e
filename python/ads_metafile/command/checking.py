"""`ads check`: one line for each file, and a status that is 0 only where every file is clean with all sums good."""
from __future__ import annotations

from argparse import Namespace
from typing import Any, NamedTuple

from .. import File, Refused
from ..disk import DiskError
from .listing import ABOUT, about
from .output import DISK, DONE, REFUSED, Closed, Earned, counted, exact, flush, put, shown
from .reading import bad_rows, stops, take

MOST_NAMED = 10
JSON_NAMES = ABOUT + ("bad_rows", "good", "error")


class Verdict(NamedTuple):
    """What is said about a file: the words of its line, the object of --json, the status."""

    words: str
    named: dict[str, Any]
    status: int


def run(options: Namespace, earned: Earned) -> None:
    """Judges every file, also where nobody reads the lines any more."""
    closed = False
    for name in options.file:
        verdict = judge(name)
        earned.add(verdict.status)
        if closed or options.quiet and verdict.status == DONE:
            continue
        try:
            put_verdict(name, verdict, options.json)
        except Closed:
            closed = True


def put_verdict(name: str, verdict: Verdict, as_json: bool) -> None:
    import json
    put((json.dumps(verdict.named) if as_json else f"{shown(name)}: {verdict.words}") + "\n")
    flush()


def judge(name: str) -> Verdict:
    try:
        given = take(name)
    except (Refused, DiskError) as error:
        words, status = (str(error), REFUSED) if isinstance(error, Refused) else (error.words, DISK)
        return Verdict(words, dict.fromkeys(JSON_NAMES) | {"file": exact(name), "good": False, "error": words}, status)
    file, bad = given.file, bad_rows(given.file)
    good = file.clean and file.header_good and not bad
    words = (f"clean, {counted(len(file), 'chunk')}" if file.clean else stops(file)) + sums(file, bad)
    if given.being_written:
        words += ", being written"
    return Verdict(words, about(given) | {"bad_rows": bad, "good": good, "error": None}, DONE if good else REFUSED)


def sums(file: File, bad: list[int]) -> str:
    """', all sums good', or which of the sums that were read are bad."""
    said = ""
    if file.mark is not None and not file.header_good:
        said += ", bad header sum"
    if bad:
        rows = ", ".join(f"{row:,}" for row in bad[:MOST_NAMED])
        more = f" and {len(bad) - MOST_NAMED:,} more" if len(bad) > MOST_NAMED else ""
        said += f", {counted(len(bad), 'bad sum')}: {'row' if len(bad) == 1 else 'rows'} {rows}{more}"
    return said or (", all sums good" if file.clean else "")
