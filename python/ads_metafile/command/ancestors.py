"""`ads ancestors`: every row that a row rests on, as the library finds them, in a list or as a tree."""
from __future__ import annotations

from argparse import Namespace
from collections.abc import Iterator

from .. import NO_ROW, ROWS_OVER_64, Ancestry, File, Refused
from .._rows import dependency_at
from .output import DONE, REFUSED, Earned, counted, exact, flush, put, put_lines, put_message, shown
from .reading import Given, outcome, rows_there, take

JSON_NAMES = ("file", "row", "rows", "missing", "clean")
ROW_NAMES = ("row", "serial", "sub_format")


def run(options: Namespace, earned: Earned) -> None:
    given = take(options.file)
    file, ancestry = given.file, found(given.file, options.row)
    earned.add(DONE if file.clean else REFUSED)
    if options.json:
        return put_json(given, options.row, ancestry)
    put_lines(tree(file, options.row) if options.tree else table(file, ancestry.rows))
    put(f"{counted(len(ancestry.rows), 'row')}; dependencies that name no row: {ancestry.missing:,}\n")
    flush()
    if not file.clean:
        put_message(f"{shown(given.name)}: {outcome(file)}")


def found(file: File, row: int) -> Ancestry:
    """The row's ancestry; a refusal says which rows there are."""
    try:
        return file.ancestors(row)
    except Refused as error:
        remark = rows_there(file) if error.number in (NO_ROW, ROWS_OVER_64) else None
        raise Refused(error.number, remark) from error


def table(file: File, rows: list[int]) -> Iterator[str]:
    form = "{:>5}  {:<38}  {}\n"
    yield form.format("row", "serial", "sub-format")
    for row in rows:
        yield form.format(row, file[row].serial, file[row].sub_format)


def tree(file: File, first: int) -> Iterator[str]:
    """The row, and under each row, farther in, what its dependencies name; what stands above isn't opened again."""
    data = file.data
    opened: set[int] = set()

    def lines(row: int, before: str) -> Iterator[str]:
        chunk, above = file[row], row in opened
        yield f"{before}{row}{' (above)' if above else ''}  {chunk.serial}  {chunk.sub_format}\n"
        if above:
            return
        opened.add(row)
        before += "  "
        for dependency in range(chunk.dependencies):
            serial, sub_format = dependency_at(data, chunk.place, dependency)
            parent = row_with(file, serial)
            if parent is None:
                yield f"{before}missing  {serial}  {sub_format}\n"
            else:
                yield from lines(parent, before)

    return lines(first, "")


def row_with(file: File, serial: str) -> int | None:
    """The row that `File.parent` finds, by the package's index: that call reads the file for each dependency."""
    try:
        return file.by_serial(serial).index
    except KeyError:
        return None


def put_json(given: Given, row: int, ancestry: Ancestry) -> None:
    import json
    chunks = (given.file[each] for each in ancestry.rows)
    rows = [dict(zip(ROW_NAMES, (each.index, each.serial, each.sub_format), strict=True)) for each in chunks]
    values = (exact(given.name), row, rows, ancestry.missing, given.file.clean)
    put(json.dumps(dict(zip(JSON_NAMES, values, strict=True))) + "\n")
