"""`ads relations`: the contents of a relation chunk for a file, and what is said of each relation line of one.

The library writes, chooses and judges; no line and no date is looked at here.
"""
from __future__ import annotations

from argparse import ArgumentTypeError, Namespace
from collections import Counter

from .. import HEADING, NO_ROW, NOT_RELATIONS, File, Refused, Verdict
from .output import DONE, REFUSED, Earned, counted, put, put_lines, shown
from .parts import put_out, row_number
from .reading import rows_there, take

LATEST = "latest"


def row_or_latest(text: str) -> int | str:
    """The number of a row, or the word for the one that holds."""
    if text == LATEST:
        return LATEST
    try:
        return row_number(text)
    except ArgumentTypeError as error:
        raise ArgumentTypeError(f"{error}; {LATEST} is the one that holds") from None


def run(options: Namespace, earned: Earned) -> None:
    file = take(options.file).file
    if options.check is None:
        return put_out(memoryview(file.relations_write()), options)
    row, verdicts = checked(file, options.check)
    earned.add(DONE if all(verdict is Verdict.DECLARED for verdict in verdicts) else REFUSED)
    put_lines(f"{line} {verdict}\n" for line, verdict in enumerate(verdicts))
    put((f"row {row:,}: " if options.check == LATEST else "") + total(verdicts) + "\n")


def checked(file: File, row: int | str) -> tuple[int, list[Verdict]]:
    """The row that is checked and its verdicts; a refusal says of what."""
    try:
        return file.relations_check_latest() if isinstance(row, str) else (row, file.relations_check(row))
    except Refused as error:
        raise Refused(error.number, remark(file, row, error.number)) from error


def remark(file: File, row: int | str, number: int) -> str | None:
    if isinstance(row, str):
        return {NO_ROW: "the file has no relation chunk", HEADING: "that of the latest one"}.get(number)
    remarks = {NO_ROW: lambda: rows_there(file),
               NOT_RELATIONS: lambda: f"row {row:,} has the sub-format {shown(file[row].sub_format)}",
               HEADING: lambda: f"row {row:,}; `ads contents` shows it"}
    return remarks[number]() if number in remarks else None


def total(verdicts: list[Verdict]) -> str:
    """'4 relation lines: 2 declared, 1 undeclared, 1 malformed'."""
    times = Counter(verdicts)
    return (f"{counted(len(verdicts), 'relation line')}: "
            + ", ".join(f"{times[verdict]:,} {verdict}" for verdict in Verdict))
