"""The byte tables of docs/FORMAT.md, held against sample files: every offset, width, label, LF, mark and value.

A table stands behind a line "Sample: `NAME` from PLACE on; m = 90, ..", which gives the values of its formulas. The
tables are then taken through every chunk of the clean samples and of the listing programs' inputs. Plain Python: no
library is asked.
"""
import re
import unittest
from collections.abc import Iterator, Mapping
from datetime import date
from pathlib import Path
from typing import NamedTuple

ROOT = Path(__file__).resolve().parents[2]
FORMAT = (ROOT / "docs" / "FORMAT.md").read_text(encoding="utf-8")
WORDS = " ".join(FORMAT.split())
CAPTION = re.compile(r"Sample: `(?P<file>[^`]+)` from (?P<place>\d+) on(; (?P<values>.*))?\.")
MULTICHUNK = b"ADS\\SYS\\MultiChunk".ljust(256)

Values = Mapping[str, int]


class Field(NamedTuple):
    offset: str
    bytes: str
    what: str
    sample: str
    there: str


class Table(NamedTuple):
    file: str
    place: int
    values: dict[str, int]
    fields: list[Field]


def value_of(formula: str, values: Values) -> int:
    """A sum of products, such as 568 + 344 × n + s."""
    total = 0
    for term in formula.split("+"):
        product = 1
        for factor in term.split("×"):
            name = factor.strip()
            product *= int(name) if name.isdigit() else values[name]
        total += product
    return total


def cells(line: str) -> list[str]:
    return [cell.strip(" ") for cell in line.strip("|").split("|")]


def tables() -> list[Table]:
    found = []
    lines = FORMAT.split("\n")
    for number, line in enumerate(lines):
        caption = CAPTION.fullmatch(line)
        if caption is None:
            continue
        names, rows = cells(lines[number + 2]), lines[number + 4:]
        given = re.findall(r"(\w) = (\d+)", caption["values"] or "")
        values = {name: int(value) for name, value in given}
        fields = []
        for row in rows[:rows.index("")]:
            by_name = dict(zip(names, cells(row), strict=True))
            sample = by_name["in the sample"]
            fields.append(Field(by_name["offset"], by_name["bytes"], by_name["what"], sample, by_name.get("there", "")))
        found.append(Table(caption["file"], int(caption["place"]), values, fields))
    return found


SERIAL, INTEGRITY, HEADER, CHUNK, DEPENDENCY, MULTI, TYPE, MINI, RELATION = tables()


def quoted(cell: str) -> bytes | None:
    """The text in backticks with which a cell begins."""
    text = re.match(r"`([^`]+)`", cell)
    return text[1].encode("ascii") if text else None


def differences(table: Table, file: bytes, place: int, values: Values, sampled: bool) -> Iterator[str]:
    """What of a table doesn't hold of the bytes from a place on."""
    mark = file[65:65 + int(file[61:64])]
    behind = 0
    for field in table.fields:
        offset, width = value_of(field.offset, values), value_of(field.bytes, values)
        found = file[place + offset:place + offset + width]
        wanted = {"LF": b"\n", "tab": b"\t", "mark": mark}.get(field.what, quoted(field.what))
        if offset != behind:
            yield f"{field}: the field before it ends at {behind}"
        if len(found) != width or (wanted is not None and found != wanted):
            yield f"{field}: {found!r} at {place + offset}"
        value = quoted(field.sample)
        if sampled and value is not None and found != value.ljust(width):
            yield f"{field}: {found!r} at {place + offset}"
        if sampled and field.there and int(field.there) != offset:
            yield f"{field}: there is {offset}"
        behind = offset + width


def part(table: Table, count: int) -> Table:
    """A table's first fields; without its last ones, where count is below 0."""
    return table._replace(fields=table.fields[:count])


class Walk:
    """The tables, taken through a clean file; what doesn't hold is kept."""

    def __init__(self, file: bytes) -> None:
        self.file, self.mark = file, int(file[61:64])
        self.wrong: list[str] = []
        self.chunks = 0
        place = self.take(part(HEADER, -1), 0, m=self.mark)
        while place < len(file):
            place = self.chunk(place)
            self.chunks += 1

    def number(self, place: int, width: int) -> int:
        return int(self.file[place:place + width])

    def take(self, table: Table, place: int, **values: int) -> int:
        self.wrong += differences(table, self.file, place, values, False)
        last = table.fields[-1]
        return place + value_of(last.offset, values) + value_of(last.bytes, values)

    def chunk(self, place: int) -> int:
        dependencies = self.number(place + 563, 4)
        specific = self.number(place + 20, 12) - 536 - 344 * dependencies
        for each in range(dependencies):
            self.take(DEPENDENCY, place + 568 + 344 * each)
        if self.file[place + 46:place + 302] == MULTICHUNK:
            return self.multichunk(self.take(part(CHUNK, 30), place, n=dependencies, s=specific))
        count = self.number(place + 589 + 344 * dependencies + specific, 12)
        data = place + 602 + 344 * dependencies + specific
        long = count - 1 if count else self.file.index(self.file[65:65 + self.mark], data) - data
        return self.take(CHUNK, place, n=dependencies, s=specific, d=long, m=self.mark)

    def multichunk(self, place: int) -> int:
        self.take(MULTI, place, t=self.number(place + 26, 12) - 27)
        at = place + 65
        for _ in range(self.number(place + 60, 4)):
            at = self.take(TYPE, at, u=self.number(at + 22, 12) - 484)
        while self.file[at:at + 10] == b"MiniChunk=":
            at = self.take(MINI, at, k=self.number(at + 20, 12))
        return self.take(INTEGRITY, at + self.mark) + self.mark


def changes(field: Field, last: bool) -> Iterator[Field]:
    """A field said wrongly: its offset, its width (a table's end is held elsewhere), its label, its value."""
    yield field._replace(offset=field.offset + " + 1")
    if not last:
        yield field._replace(bytes=field.bytes + " + 1")
    if quoted(field.what):
        yield field._replace(what=field.what.replace("`", "`x", 1))
    if quoted(field.sample):
        yield field._replace(sample=field.sample.replace("`", "`x", 1))


class Tables(unittest.TestCase):
    def test_each_table_holds_of_its_sample(self) -> None:
        for table in tables():
            file = (ROOT / "samples" / table.file).read_bytes()
            self.assertEqual(list(differences(table, file, table.place, table.values, True)), [])

    def test_each_table_has_its_bytes(self) -> None:
        long = [(SERIAL, 38), (INTEGRITY, 254), (part(HEADER, -1), 499), (CHUNK, 859), (DEPENDENCY, 344),
                (part(MULTI, 6), 65), (TYPE, 518), (MINI, 37), (RELATION, 605)]
        for table, end in long:
            last = table.fields[-1]
            self.assertEqual(value_of(last.offset, table.values) + value_of(last.bytes, table.values), end)

    def test_the_tables_hold_of_every_chunk(self) -> None:
        chunks = 0
        for path in set((ROOT / "samples").glob("[!d]*.ads")) - {ROOT / "samples" / "no-bytes.ads"}:
            walk = Walk(path.read_bytes())
            self.assertEqual(walk.wrong, [], path)
            chunks += walk.chunks
        self.assertGreaterEqual(chunks, 11)

    def test_a_wrong_table_is_seen(self) -> None:
        for table in tables():
            file = (ROOT / "samples" / table.file).read_bytes()
            for number, field in enumerate(table.fields):
                for wrong in changes(field, number + 1 == len(table.fields)):
                    fields = [*table.fields[:number], wrong, *table.fields[number + 1:]]
                    found = differences(table._replace(fields=fields), file, table.place, table.values, True)
                    self.assertNotEqual(list(found), [], wrong)


class Numbers(unittest.TestCase):
    def test_numbers_names_and_words_are_those_of_the_one_list(self) -> None:
        rows = (ROOT / "docs" / "numbers.tsv").read_text(encoding="ascii").splitlines()[1:]
        listed = [row.split("\t") for row in rows if not row.startswith("0\t")]
        here = [cells(line)[:3] for line in FORMAT.splitlines() if re.match(r"\| \d+ \| [A-Z_]+\d* \|", line)]
        self.assertEqual(here, listed)
        self.assertEqual([row[0] for row in here], [str(number) for number in (*range(1, 22), 23, 24)]
                         + ["27", "28", "29"])


class WorkedExamples(unittest.TestCase):
    def test_day_numbers(self) -> None:
        """Python counts days alike."""
        paragraph = WORDS.split("A date has a **day number**")[1].split("no call answers it")[0]
        numbers = re.findall(r"`(\d{4})(\d\d)(\d\d)` (?:is )?day (\d+)", paragraph)
        self.assertEqual(len(numbers), 6)
        for year, month, day, number in numbers:
            self.assertEqual(date(int(year), int(month), int(day)).toordinal(), int(number))

    def test_the_heading_of_a_relation_chunk(self) -> None:
        sentence = WORDS.split("The first line is the heading, 131 bytes with its LF: the texts ")[1].split(". A line")[0]
        heading = "\t".join(re.findall(r"`([^`]+)`", sentence)) + "\n"
        self.assertEqual((len(heading), heading.count("\t")), (131, 4))
        file = (ROOT / "samples" / RELATION.file).read_bytes()
        self.assertIn(b"\n" + heading.encode("ascii"), file[:RELATION.place])

    def test_the_check_of_a_serial_number(self) -> None:
        sentence = r"`(#[^`]{34})` adds up to (\d+), (\d+) = (\d+) × 256 \+ (\d+), so the check is `(\d{3})`"
        example = re.search(sentence, WORDS)
        self.assertIsNotNone(example)
        text, total, again, times, rest, check = example.groups()
        self.assertEqual(sum(text.encode("ascii")), int(total))
        self.assertEqual((total, int(times) * 256 + int(rest), int(check)), (again, int(total), int(rest)))

    def test_the_sum_of_the_sample(self) -> None:
        example = re.search(r"bytes (\d+) to (\d+) add up to (\d+) = (\d+) × 256 \+ (\d+)", WORDS)
        self.assertIsNotNone(example)
        first, last, total, times, rest = map(int, example.groups())
        file = (ROOT / "samples" / CHUNK.file).read_bytes()
        self.assertEqual(sum(file[first:last + 1]), total)
        self.assertEqual(times * 256 + rest, total)
        self.assertEqual(int(file[last + 1:last + 4]), rest)


if __name__ == "__main__":
    unittest.main()
