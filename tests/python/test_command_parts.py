"""`ads contents`, `ads gather`, `ads parents`: what they give, and that -o never writes over a file."""
import json
import os
import pty
import resource
import unittest
from pathlib import Path

from running import CommandTest, chunks
from metafile_bytes import Dependency, Type, head, header, multi, plain, serial

FIRST, SECOND, THIRD = (serial("%05d" % random) for random in (42, 43, 44))
DATA = bytes(range(256)) * 300
P2 = Type("P2/91", "ADS\\DATA\\DEPTH")
FILE = (header("LLC", b"") + plain(b"", FIRST, DATA)
        + multi(b"", SECOND, [P2], [("P2/91", b"12.5\n"), ("P2/91", b""), ("P2/91", b"12.7\n")])
        + plain(b"", THIRD, b"text\n", head(parents=[
            Dependency(FIRST, "ADS\\DATA\\TEST"), Dependency(SECOND, "OTHER"), Dependency(serial("00099"), "GONE")])))


class Bytes(CommandTest):
    def setUp(self) -> None:
        super().setUp()
        self.path("a.ads", FILE)

    def test_contents(self) -> None:
        self.assertEqual(self.expect(0, "contents", "a.ads", "0").bytes, DATA)
        self.assertEqual(self.expect(0, "contents", "a.ads", "0", "-o", "-").bytes, DATA)
        self.assertEqual(self.expect(0, "contents", "a.ads", "0", "-o", "ä ö").bytes, b"")
        self.assertEqual(self.path("ä ö").read_bytes(), DATA)
        self.path("cut.ads", FILE[:-1])
        self.assertEqual(self.expect(0, "contents", "cut.ads", "0").bytes, DATA)

    def test_gather(self) -> None:
        self.assertEqual(self.expect(0, "gather", "a.ads", "1", "P2/91").bytes, b"12.5\n12.7\n")
        self.expect(0, "gather", "a.ads", "1", "P2/91", "-o", "depths")
        self.assertEqual(self.path("depths").read_bytes(), b"12.5\n12.7\n")

    def test_no_such_row(self) -> None:
        said = "ads: a.ads: refused with 13 (no such row): the file has 3 rows, 0 to 2\n"
        for row in ("3", "0099", "18446744073709551616", "9" * 40):
            self.assertEqual(self.expect(1, "contents", "a.ads", row).errors, said)
        self.assertEqual(self.expect(1, "gather", "a.ads", "3", "P2/91", "-o", "out").errors, said)
        ended = self.expect(1, "parents", "a.ads", "3")
        self.assertEqual((ended.output, ended.errors), ("", said))
        self.assertFalse(self.path("out").exists())
        self.path("b.ads", header("LLC", b""))
        self.path("none.ads", b"")
        for name in ("b.ads", "none.ads"):
            for asked in (("contents", name, "0"), ("gather", name, "0", "P2/91"), ("parents", name, "0")):
                self.assertEqual(self.expect(1, *asked).errors,
                                 f"ads: {name}: refused with 13 (no such row): the file has no rows\n")

    def test_a_row_is_a_number(self) -> None:
        for row in ("-1", "x", "1.0", "٣", ""):
            self.assertIn("isn't a row number: rows count from 0", self.expect(2, "contents", "a.ads", row).errors)

    def test_no_such_id(self) -> None:
        fourteen = "refused with 14 (no such dependency, not a MultiChunk, or the short ID is undeclared): "
        self.assertEqual(self.expect(1, "gather", "a.ads", "0", "P2/91").errors,
                         f"ads: a.ads: {fourteen}row 0 isn't a MultiChunk; `ads contents` gives its contents\n")
        for short_id in ("P2", "P2/91 but longer", "é", b"\xff", ""):
            self.assertEqual(self.expect(1, "gather", "a.ads", "1", short_id).errors,
                             f"ads: a.ads: {fourteen}row 1 doesn't declare this short ID\n")


class NewFiles(CommandTest):
    def setUp(self) -> None:
        super().setUp()
        self.source = self.path("a.ads", FILE)

    def refused(self, out: str | Path, said: str) -> None:
        ended = self.expect(3, "contents", "a.ads", "0", "-o", out)
        self.assertEqual(ended.errors, f"ads: {out}: {said}, and is never overwritten; give another name\n")
        self.assertEqual(self.source.read_bytes(), FILE)

    def test_the_source_by_any_name(self) -> None:
        os.link(self.source, self.path("hard.ads"))
        self.path("soft.ads").symlink_to("a.ads")
        for name in ("a.ads", "hard.ads", "soft.ads", "./a.ads", self.source):
            self.refused(name, "is a.ads itself")

    def test_an_existing_file(self) -> None:
        self.path("b", b"old")
        self.path("gone").symlink_to("nowhere")
        for name in ("b", "gone", "."):
            self.refused(name, "exists already")
        self.assertEqual(self.path("b").read_bytes(), b"old")
        self.assertFalse(self.path("nowhere").exists())

    def test_no_folder(self) -> None:
        self.assertEqual(self.expect(3, "contents", "a.ads", "0", "-o", "x/y").errors,
                         "ads: x/y: no such folder; nothing was written\n")

    def test_a_full_disk_leaves_no_part(self) -> None:
        def limit() -> None:
            resource.setrlimit(resource.RLIMIT_FSIZE, (1000, 1000))
        ended = self.expect(3, "contents", "a.ads", "0", "-o", "out", preexec_fn=limit)
        self.assertEqual(ended.errors, "ads: out: file too large; nothing was written\n")
        self.assertFalse(self.path("out").exists())

    def test_standard_output_must_be_there(self) -> None:
        ended = self.run_ads("contents", "a.ads", "0", preexec_fn=lambda: os.close(1), stdout=None)
        self.assertEqual((ended.status, ended.errors),
                         (3, "ads: standard output: is closed; give a new file with -o OUT\n"))


class Terminal(CommandTest):
    def shown(self, row: str) -> tuple[int, bytes, bytes]:
        """What a terminal shows, and the messages."""
        ours, theirs = pty.openpty()
        with self.start("contents", "a.ads", row, stdout=theirs) as process:
            os.close(theirs)
            errors = process.stderr.read()
        try:
            return process.returncode, os.read(ours, 1000), errors
        except OSError:
            return process.returncode, b"", errors
        finally:
            os.close(ours)

    def test_only_text_goes_to_a_terminal(self) -> None:
        texts = (b"line\tone\r\nline two\n", "12,5 \u00b1 0,1\n".encode(), b"", b"\x1b[2Jred", b"\xff", b"a\0b")
        self.path("a.ads", chunks(*texts))
        for row, text in enumerate(texts[:3]):
            status, output, errors = self.shown(str(row))
            self.assertEqual((status, output.replace(b"\r\r\n", b"\r\n").replace(b"\r\n", b"\n"), errors),
                             (0, text.replace(b"\r\n", b"\n"), b""))
        for row in range(3, 6):
            status, output, errors = self.shown(str(row))
            self.assertEqual((status, output), (2, b""))
            self.assertIn(b"standard output is a terminal; give a new file with -o OUT, or a pipe\n", errors)


class Parents(CommandTest):
    def setUp(self) -> None:
        super().setUp()
        self.path("a.ads", FILE)

    def test_table(self) -> None:
        self.assertEqual(self.expect(0, "parents", "a.ads").lines, [
            "  row  dependency  parent    sub-formats  serial                                  sub-format",
            f"    2           0  0         agree        {FIRST}  ADS\\DATA\\TEST",
            f"    2           1  1         DIFFER       {SECOND}  OTHER",
            f"    2           2  missing   -            {serial('00099')}  GONE"])
        self.assertEqual(len(self.expect(0, "parents", "a.ads", "0").lines), 1)
        self.assertEqual(len(self.expect(0, "parents", "a.ads", "2").lines), 4)

    def test_json(self) -> None:
        found = json.loads(self.expect(0, "parents", "--json", "a.ads", "2").output)
        self.assertEqual(found["file"], "a.ads")
        names = ("row", "dependency", "serial", "sub_format", "parent", "agree")
        self.assertEqual(found["dependencies"], [dict(zip(names, each)) for each in (
            (2, 0, FIRST, "ADS\\DATA\\TEST", 0, True), (2, 1, SECOND, "OTHER", 1, False),
            (2, 2, serial("00099"), "GONE", None, False))])


if __name__ == "__main__":
    unittest.main()
