r"""Relation chunks (ADS\SYS\Relations): `File.relations_write`, `relations_check`, `relations_check_latest` and
`ads relations`.

What is right in a line, the library says, and tests/compare shows it; here is what package and command make of that.
"""
from __future__ import annotations

import os
import resource
import unittest
from unittest import mock

from running import CommandTest, chunk_options
from support import REPOSITORY, begun, description, made, many, serial
from metafile_bytes import Dependency, head, header, plain

import ads_metafile
from ads_metafile import Refused, Verdict, _relations

SAMPLE = REPOSITORY / "samples" / "relations.ads"
DATED = REPOSITORY / "samples" / "relations-dated.ads"
SUB_FORMAT = "ADS\\SYS\\Relations"
HEADING = (b"ADS Metafile Master Relation Chunk Revision 1.00\tChild serial number\tChild sub-format ID\t"
           b"Parent serial number\tParent sub-format ID\n")
DECLARED, UNDECLARED, MALFORMED = Verdict


def line(child: int, parent: int, sub_format: str = "ADS\\DATA\\TEST") -> bytes:
    """A line about two chunks of the same sub-format, with its line feed."""
    fields = ("ADS relation", serial(child), sub_format.ljust(256), serial(parent), sub_format.ljust(256))
    return "\t".join(fields).encode("ascii") + b"\n"


def with_contents(data: bytes, contents: bytes, number: int = 60_000, written: str = "20240301") -> bytes:
    """The file and a relation chunk behind it."""
    return data + plain(b"", serial(number), contents, head(SUB_FORMAT), written=written)


class Package(unittest.TestCase):
    def test_written(self) -> None:
        with ads_metafile.read(made(b"first", b"second", b"third")) as file:
            self.assertEqual(file.relations_write(), HEADING + line(43, 42) + line(44, 43))
        for data in (b"", b"x", begun(), begun()[:-1], made(b"alone")):
            with ads_metafile.read(data) as file:
                self.assertEqual(file.relations_write(), HEADING)

    def test_checked(self) -> None:
        with ads_metafile.open(SAMPLE) as file:
            self.assertEqual(file.relations_check(2), [DECLARED, DECLARED, UNDECLARED, MALFORMED])
            self.assertEqual([str(each) for each in Verdict], ["declared", "undeclared", "malformed"])
        data = made(b"first", b"second")
        for contents, verdicts in ((HEADING, []), (HEADING[:-1], []), (HEADING + b"comment", []),
                                   (HEADING + b"ADS relation", [MALFORMED]), (HEADING + line(43, 42), [DECLARED]),
                                   (HEADING + b"ADS relation\n" * 50, [MALFORMED] * 50),
                                   (HEADING + line(42, 43)[:-1], [UNDECLARED])):
            with ads_metafile.read(with_contents(data, contents)) as file:
                self.assertEqual(file.relations_check(2), verdicts)

    def test_refused(self) -> None:
        with ads_metafile.open(SAMPLE) as file:
            for row, number in ((0, 19), (1, 19), (3, 13), (2**64 - 1, 13)):
                with self.assertRaises(Refused) as caught:
                    file.relations_check(row)
                self.assertEqual(caught.exception.number, number)
            for outside in (-1, 2**64):
                with self.assertRaisesRegex(ValueError, "row is .*, outside 0 to 2\\^64 - 1"):
                    file.relations_check(outside)
        for contents in (b"", HEADING[1:], HEADING.replace(b"\n", b"\r\n")):
            with ads_metafile.read(with_contents(begun(), contents)) as file, self.assertRaises(Refused) as caught:
                file.relations_check(0)
            self.assertEqual(str(caught.exception), "refused with 20 (the heading line of the relation chunk differs)")

    def test_the_latest(self) -> None:
        """The latest writing date, and of equal dates the later row; a named row is checked, whichever holds."""
        with ads_metafile.open(DATED) as file:
            latest = file.relations_check_latest()
            self.assertEqual(latest, (4, [DECLARED] * 2))
            self.assertEqual((latest.row, latest.verdicts), latest)
            self.assertEqual([file.relations_check(row) for row in range(2, 6)],
                             [[UNDECLARED], [DECLARED], [DECLARED] * 2, [MALFORMED]])
        contents = [HEADING + b"ADS relation\n" * lines for lines in range(3)]
        for dates, row in ((("20231231", "20240101", "20240229"), 3), (("20240301", "20240229", "20240301"), 3),
                           (("20240301", "20240229", "20231231"), 1), (("20240101", "20240101", "20231231"), 2)):
            data = made(b"first")
            for lines, written in enumerate(dates):
                data = with_contents(data, contents[lines], 60_000 + lines, written)
            with ads_metafile.read(data) as file:
                self.assertEqual(file.relations_check_latest(), (row, [MALFORMED] * (row - 1)))

    def test_the_latest_refused(self) -> None:
        wrong = with_contents(with_contents(begun(), HEADING), HEADING[1:], 60_001, "20240302")
        for data, number in ((b"", 13), (b"x", 13), (begun(), 13), (made(b"first"), 13), (wrong, 20)):
            with ads_metafile.read(data) as file, self.assertRaises(Refused) as caught:
                file.relations_check_latest()
            self.assertEqual(caught.exception.number, number)

    def test_a_text_over_the_limit(self) -> None:
        """The buffer is never longer than the library takes; then the text doesn't fit."""
        with ads_metafile.open(SAMPLE) as file, mock.patch.object(_relations, "MOST_BYTES", 131 + 604):
            with self.assertRaisesRegex(Refused, r"refused with 18 .*: the text would have more than 735 bytes"):
                file.relations_write()

    def test_appended(self) -> None:
        """The text as a chunk of the file that it was written for: each line is declared, and it changes no text."""
        data = made(b"first", b"second", b"third", strategy="NUL", mark=b"****")
        with ads_metafile.read(data) as file:
            text = file.relations_write()
        for is_open in (False, True):
            done = ads_metafile.append(data, description(50, sub_format=SUB_FORMAT), text, parents=[0], open=is_open)
            with ads_metafile.read(done.data) as file:
                self.assertEqual((file.relations_check(3), file.relations_write()), ([DECLARED] * 2, text))
                self.assertEqual(file.relations_check_latest(), (3, [DECLARED] * 2))

    def test_many(self) -> None:
        data = many(2_000) + plain(b"", serial(60_001), b"", head(parents=[
            Dependency(serial(row), "ADS\\DATA\\TEST") for row in range(0, 2_000, 2)]))
        with ads_metafile.read(data) as file:
            text = file.relations_write()
        self.assertEqual(text, HEADING + b"".join(line(60_001, row) for row in range(0, 2_000, 2)))
        with ads_metafile.read(with_contents(data, text)) as file:
            self.assertEqual(file.relations_check(2_001), [DECLARED] * 1_000)


class Command(CommandTest):
    def setUp(self) -> None:
        super().setUp()
        self.file = self.path("a.ads", SAMPLE.read_bytes())
        with ads_metafile.open(SAMPLE) as file:
            self.text = file.relations_write()

    def test_the_text(self) -> None:
        self.assertEqual(self.text.count(b"\n"), 3)
        self.assertEqual(self.expect(0, "relations", "a.ads").bytes, self.text)
        self.assertEqual(self.expect(0, "relations", "a.ads", "--write", "-").bytes, self.text)
        for option, name in (("--write", "ä ö"), ("-o", "b")):
            self.assertEqual(self.expect(0, "relations", "a.ads", option, name).bytes, b"")
            self.assertEqual(self.path(name).read_bytes(), self.text)
        self.path("cut.ads", self.file.read_bytes()[:-1])
        self.assertEqual(self.expect(0, "relations", "cut.ads").bytes, self.text)
        self.path("none.ads", b"")
        self.assertEqual(self.expect(0, "relations", "none.ads").bytes, HEADING)

    def test_no_file_is_overwritten(self) -> None:
        before = self.file.read_bytes()
        os.link(self.file, self.path("hard.ads"))
        self.path("b", b"old")
        self.path("gone").symlink_to("nowhere")
        for name, said in (("a.ads", "is a.ads itself"), ("hard.ads", "is a.ads itself"), ("b", "exists already"),
                           ("gone", "exists already")):
            self.assertEqual(self.expect(3, "relations", "a.ads", "--write", name).errors,
                             f"ads: {name}: {said}, and is never overwritten; give another name\n")
        self.assertEqual((self.file.read_bytes(), self.path("b").read_bytes()), (before, b"old"))
        self.assertFalse(self.path("nowhere").exists())

    def test_a_full_disk_leaves_no_part(self) -> None:
        def limit() -> None:
            resource.setrlimit(resource.RLIMIT_FSIZE, (1000, 1000))
        # once before, so that no compiled module is cut short
        self.expect(0, "relations", "a.ads", "--write", "before")
        ended = self.expect(3, "relations", "a.ads", "--write", "out", preexec_fn=limit)
        self.assertEqual(ended.errors, "ads: out: file too large; nothing was written\n")
        self.assertFalse(self.path("out").exists())

    def test_standard_output_must_be_there(self) -> None:
        ended = self.run_ads("relations", "a.ads", preexec_fn=lambda: os.close(1), stdout=None)
        self.assertEqual((ended.status, ended.errors),
                         (3, "ads: standard output: is closed; give a new file with -o OUT\n"))
        ended = self.run_ads("relations", "a.ads", "--check", "2", preexec_fn=lambda: os.close(1), stdout=None)
        self.assertEqual((ended.status, ended.errors), (1, ""))

    def test_the_check(self) -> None:
        self.assertEqual(self.expect(1, "relations", "a.ads", "--check", "2").lines, [
            "0 declared", "1 declared", "2 undeclared", "3 malformed",
            "4 relation lines: 2 declared, 1 undeclared, 1 malformed"])
        self.path("text", self.text)
        self.expect(0, "append", "a.ads", *chunk_options(serial(50), sub_format=SUB_FORMAT), "--contents=text")
        self.assertEqual(self.expect(0, "relations", "a.ads", "--check", "3").lines, [
            "0 declared", "1 declared", "2 relation lines: 2 declared, 0 undeclared, 0 malformed"])
        self.path("none.ads", with_contents(header("LLC", b""), HEADING))
        self.assertEqual(self.expect(0, "relations", "none.ads", "--check", "0").output,
                         "0 relation lines: 0 declared, 0 undeclared, 0 malformed\n")

    def test_the_check_refused(self) -> None:
        for row, said in (("0", "19 (the row isn't a relation chunk): row 0 has the sub-format ADS\\DATA\\TEST"),
                          ("3", "13 (no such row): the file has 3 rows, 0 to 2"),
                          ("9" * 40, "13 (no such row): the file has 3 rows, 0 to 2")):
            ended = self.expect(1, "relations", "a.ads", "--check", row)
            self.assertEqual((ended.output, ended.errors), ("", f"ads: a.ads: refused with {said}\n"))
        self.path("b.ads", with_contents(header("LLC", b""), b"ADS relation\n"))
        self.assertEqual(self.expect(1, "relations", "b.ads", "--check=0").errors,
                         "ads: b.ads: refused with 20 (the heading line of the relation chunk differs): row 0; "
                         "`ads contents` shows it\n")

    def test_the_check_of_the_latest(self) -> None:
        self.path("dated.ads", DATED.read_bytes())
        self.assertEqual(self.expect(0, "relations", "dated.ads", "--check", "latest").lines, [
            "0 declared", "1 declared", "row 4: 2 relation lines: 2 declared, 0 undeclared, 0 malformed"])
        self.assertEqual(self.expect(1, "relations", "dated.ads", "--check", "5").lines, [
            "0 malformed", "1 relation line: 0 declared, 0 undeclared, 1 malformed"])
        self.assertEqual(self.expect(1, "relations", "a.ads", "--check=latest").lines[-1],
                         "row 2: 4 relation lines: 2 declared, 1 undeclared, 1 malformed")
        for data, said in ((b"", "13 (no such row): the file has no relation chunk"),
                           (made(b"first"), "13 (no such row): the file has no relation chunk"),
                           (with_contents(begun(), b""), "20 (the heading line of the relation chunk differs): that of "
                            "the latest one")):
            self.path("b.ads", data)
            ended = self.expect(1, "relations", "b.ads", "--check", "latest")
            self.assertEqual((ended.output, ended.errors), ("", f"ads: b.ads: refused with {said}\n"))

    def test_usage(self) -> None:
        for arguments, said in ((("--check", "2", "--write", "b"), "not allowed with argument"),
                                (("--check", "-1"), "isn't a row number: rows count from 0"),
                                (("--check", "x"), "rows count from 0; latest is the one that holds"),
                                (("--check", "LATEST"), "isn't a row number"),
                                (("--check", "latest", "--write", "b"), "not allowed with argument"),
                                (("2",), "unrecognized arguments: 2")):
            self.assertIn(said, self.expect(2, "relations", "a.ads", *arguments).errors)
        self.assertEqual(self.expect(3, "relations", "lost.ads").errors, "ads: lost.ads: no such file\n")


if __name__ == "__main__":
    unittest.main()
