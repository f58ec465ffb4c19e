"""Every row that a row rests on: `File.ancestors` and `ads ancestors`.

Which rows these are, the library says, and tests/compare shows it; here is what package and command make of that.
"""
from __future__ import annotations

import json
import os
import random
import unittest

from running import CommandTest, Ended
from support import REPOSITORY, many
from metafile_bytes import Dependency, head, header, plain, serial

import ads_metafile
from ads_metafile import Ancestry, Refused

SAMPLE = REPOSITORY / "samples" / "ancestors.ads"
CIRCLE = REPOSITORY / "samples" / "circle.ads"
TEST = "ADS\\DATA\\TEST"
REFUSED = {13: "refused with 13 (no such row): the file has {}",
           23: "refused with 23 (a chain of dependencies comes back to a row on it)",
           24: "refused with 24 (more than 64 rows in the reading): the file has {}"}


def number(row: int) -> str:
    """The serial number of a row; of -1, -2 and so on there is none."""
    return serial("%05d" % (100 + row))


def family(*parents: list[int]) -> bytes:
    """A file with a row for each list of parents; a number below 0 is that of none."""
    return header("LLC", b"") + b"".join(
        plain(b"", number(row), b"", head(parents=[Dependency(number(each), TEST) for each in named]))
        for row, named in enumerate(parents))


def before(count: int) -> bytes:
    """Rows that each name all before them."""
    return family(*(list(range(row)) for row in range(count)))


class Package(unittest.TestCase):
    def test_the_sample(self) -> None:
        with ads_metafile.open(SAMPLE) as file:
            found = [file.ancestors(row) for row in range(6)]
            self.assertEqual(found, [([], 0), ([], 0), ([0], 0), ([0, 2], 0), ([0, 2], 1), ([0, 2, 3, 4], 2)])
            self.assertEqual(found[5], Ancestry(rows=[0, 2, 3, 4], missing=2))
            self.assertEqual((found[5].rows, found[5].missing), found[5])

    def refused(self, file: ads_metafile.File, row: int, with_number: int, name: str) -> None:
        with self.assertRaises(Refused) as caught:
            file.ancestors(row)
        self.assertEqual((caught.exception.number, caught.exception.name), (with_number, name))
        self.assertEqual(getattr(ads_metafile, name), with_number)

    def test_circles(self) -> None:
        with ads_metafile.open(CIRCLE) as file:
            self.assertEqual(file.ancestors(0), ([], 0))
            for row in (1, 2, 3):
                self.refused(file, row, 23, "CIRCLE")

    def test_64_rows(self) -> None:
        with ads_metafile.read(family([], *([row] for row in range(63)))) as file:
            for row in range(64):
                self.assertEqual(file.ancestors(row), (list(range(row)), 0))
        with ads_metafile.read(before(64)) as file:
            self.assertEqual(file.ancestors(63), (list(range(63)), 0))
        with ads_metafile.read(many(65)) as file:
            self.refused(file, 0, 24, "ROWS_OVER_64")
            self.refused(file, 65, 13, "NO_ROW")

    def test_rows_outside(self) -> None:
        with ads_metafile.open(SAMPLE) as file:
            for row in (6, 2**64 - 1):
                self.refused(file, row, 13, "NO_ROW")
            for outside in (-1, 2**64):
                with self.assertRaisesRegex(ValueError, f"^row is {outside}, outside 0 to 2\\^64 - 1$"):
                    file.ancestors(outside)
            for wrong in (1.5, "1", None):
                with self.assertRaises(TypeError):
                    file.ancestors(wrong)  # type: ignore[arg-type]

    def test_behind_a_fault(self) -> None:
        """A row behind the stop is none."""
        data = family([1], [2], [])
        with ads_metafile.read(data) as whole, ads_metafile.read(data[:-1]) as cut:
            self.assertEqual((whole.ancestors(0), cut.ancestors(0)), (([1, 2], 0), ([1], 1)))


class Command(CommandTest):
    def setUp(self) -> None:
        super().setUp()
        self.path("a.ads", SAMPLE.read_bytes())
        self.path("circle.ads", CIRCLE.read_bytes())

    def of(self, name: str, row: object, *more: str) -> Ended:
        return self.run_ads("ancestors", name, str(row), *more)

    def printed(self, name: str, row: object, *more: str) -> list[str]:
        return self.expect(0, "ancestors", name, str(row), *more).lines

    def shown(self, row: int) -> str:
        """Serial number and sub-format of a row of the sample."""
        with ads_metafile.open(SAMPLE) as file:
            return f"{file[row].serial}  {file[row].sub_format}"

    def test_list(self) -> None:
        heading = "  row  serial                                  sub-format"
        self.assertEqual(self.printed("a.ads", 5), [
            heading, *(f"    {row}  {self.shown(row)}" for row in (0, 2, 3, 4)),
            "4 rows; dependencies that name no row: 2"])
        self.assertEqual(self.printed("a.ads", "0002"), [
            heading, f"    0  {self.shown(0)}", "1 row; dependencies that name no row: 0"])
        self.assertEqual(self.printed("circle.ads", 0), [heading, "0 rows; dependencies that name no row: 0"])

    def test_tree(self) -> None:
        """A row is opened once; what is missing has the names of the dependency."""
        missing = f"missing  {serial('00048')}  ADS\\DATA\\GRID"
        self.assertEqual(self.printed("a.ads", 5, "--tree"), [
            f"5  {self.shown(5)}", f"  3  {self.shown(3)}", f"    2  {self.shown(2)}", f"      0  {self.shown(0)}",
            f"  4  {self.shown(4)}", f"    2 (above)  {self.shown(2)}", f"    {missing}", f"  {missing}",
            "4 rows; dependencies that name no row: 2"])
        self.assertEqual(self.printed("a.ads", 0, "--tree"), [
            f"0  {self.shown(0)}", "0 rows; dependencies that name no row: 0"])

    def test_tree_by_serial_number(self) -> None:
        """However its check is written, and whatever sub-format is named; a dependency that stands there twice."""
        padded = Dependency(serial("00042", fill=" "), "ANOTHER")
        self.path("b.ads", header("LLC", b"") + plain(b"", serial("00042"), b"", head("", fill=" "))
                  + plain(b"", serial("00043", fill=" "), b"", head("CHILD", parents=[padded, padded])))
        self.assertEqual(self.printed("b.ads", 1, "--tree"), [
            f"1  {serial('00043', fill=' ')}  CHILD", f"  0  {serial('00042')}  ", f"  0 (above)  {serial('00042')}  ",
            "1 row; dependencies that name no row: 0"])

    def test_tree_of_many_ways(self) -> None:
        """Each row is opened once: a line for each dependency. A chain goes in by two spaces a row."""
        self.path("b.ads", before(64))
        lines = self.printed("b.ads", 63, "--tree")
        self.assertEqual(len(lines), 1 + 64 * 63 // 2 + 1)
        self.assertEqual(sum(" (above)  " in line for line in lines), 64 * 63 // 2 - 63)
        self.path("b.ads", family(*([row + 1] for row in range(63)), []))
        lines = self.printed("b.ads", 0, "--tree")
        self.assertEqual(lines[63], " " * 126 + f"63  {number(63)}  {TEST}")

    def test_tree_and_list_agree(self) -> None:
        chance = random.Random(7)
        for _ in range(12):
            count = chance.randrange(1, 12)
            self.path("b.ads", family(*([chance.randrange(-2, row) for _ in range(chance.randrange(5))]
                                        for row in range(count))))
            row = chance.randrange(count)
            *tree, total = self.printed("b.ads", row, "--tree")
            _, *listed, same = self.printed("b.ads", row)
            opened = [line.split()[0] for line in tree if "missing" not in line and "(above)" not in line]
            rows = [str(row), *(line.split()[0] for line in listed)]
            self.assertEqual(sorted(opened, key=int), sorted(rows, key=int))
            missing = sum("missing" in line for line in tree)
            self.assertEqual((total, int(total.split(": ")[1])), (same, missing))

    def test_json(self) -> None:
        ended = self.expect(0, "ancestors", "--json", "a.ads", "5")
        self.assertEqual((ended.errors, ended.output.count("\n")), ("", 1))
        with ads_metafile.open(SAMPLE) as file:
            rows = [{"row": row, "serial": file[row].serial, "sub_format": file[row].sub_format}
                    for row in (0, 2, 3, 4)]
        self.assertEqual(list(json.loads(ended.output).items()),
                         [("file", "a.ads"), ("row", 5), ("rows", rows), ("missing", 2), ("clean", True)])
        found = json.loads(self.expect(0, "ancestors", "a.ads", "1", "--json").output)
        self.assertEqual((found["rows"], found["missing"]), ([], 0))

    def test_not_clean(self) -> None:
        """Said on standard error, and by the status."""
        self.path("b.ads", family([1], [2], [])[:-1])
        said = ("ads: b.ads: not clean: stops at byte 2,719 with 4 (the bytes end too soon); 855 bytes behind it are "
                "not in the table\n")
        for more, first in (((), f"    1  {number(1)}  {TEST}"), (("--tree",), f"  1  {number(1)}  {TEST}")):
            ended = self.of("b.ads", 0, *more)
            self.assertEqual((ended.status, ended.lines[1], ended.errors), (1, first, said))
            self.assertEqual(ended.lines[-1], "1 row; dependencies that name no row: 1")
        ended = self.of("b.ads", 0, "--json")
        self.assertEqual((ended.status, ended.errors, json.loads(ended.output)["clean"]), (1, "", False))

    def test_refused(self) -> None:
        """Nothing is printed but the message."""
        self.path("many.ads", many(65))
        self.path("none.ads", b"")
        for name, row, with_number, rows in (
                ("a.ads", 6, 13, "6 rows, 0 to 5"), ("a.ads", "9" * 40, 13, "6 rows, 0 to 5"),
                ("none.ads", 0, 13, "no rows"), ("many.ads", 65, 13, "65 rows, 0 to 64"),
                ("many.ads", 0, 24, "65 rows, 0 to 64"), ("circle.ads", 1, 23, ""), ("circle.ads", 3, 23, "")):
            for more in ((), ("--tree",), ("--json",)):
                ended = self.expect(1, "ancestors", name, str(row), *more)
                said = REFUSED[with_number].format(rows)
                self.assertEqual((ended.output, ended.errors), ("", f"ads: {name}: {said}\n"))

    def test_usage(self) -> None:
        for row in ("-1", "x", "1.0", "\u0663", ""):
            self.assertIn("isn't a row number: rows count from 0", self.expect(2, "ancestors", "a.ads", row).errors)
        for given, said in ((("a.ads",), "the following arguments are required: ROW"),
                            (("a.ads", "5", "--tree", "--json"), "argument --json: not allowed with argument --tree")):
            ended = self.expect(2, "ancestors", *given)
            self.assertIn(said, ended.errors)
            self.assertEqual(ended.output, "")
        self.assertEqual(self.expect(3, "ancestors", "lost.ads", "0").errors, "ads: lost.ads: no such file\n")

    def test_closed_streams(self) -> None:
        """A closed stream is quiet, and the status stays."""
        self.path("b.ads", family([1], [2], [])[:-1])
        for closed in ((1,), (2,), (1, 2)):
            streams = {"stdout" if each == 1 else "stderr": None for each in closed}
            ended = self.run_ads("ancestors", "b.ads", "0", **streams,
                                 preexec_fn=lambda: [os.close(each) for each in closed])
            self.assertEqual((ended.status, ended.output == ""), (1, 1 in closed))


if __name__ == "__main__":
    unittest.main()
