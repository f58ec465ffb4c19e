"""`ads list`: the table, tsv, csv and json, which rows, the status, and a standard output that is closed."""
import csv
import fcntl
import io
import json
import os
import subprocess
import unittest

from running import ADS, CommandTest, Ended, chunks, environment
from metafile_bytes import Dependency, Type, head, header, multi, plain, serial, times

MARK = b"*" * 90
FIRST, SECOND, THIRD, FOURTH = (serial("%05d" % random) for random in (42, 43, 44, 45))
P2 = head("ADS\\DATA\\P2")
EDIT = head("ADS\\DATA\\EDIT", when=times("SPE"), parents=[Dependency(FIRST, "ADS\\DATA\\P2")])
SURVEY = header("NUL", MARK) + plain(MARK, FIRST, bytes(1048576), P2) + plain(MARK, SECOND, b"x" * 120, EDIT, off=1)

TABLE = (
    "survey.ads: NUL, mark of 90 bytes, header good\n"
    "row  place    header  contents      bytes  end       deps  offset s      sum   ending          "
    "serial                                  sub-format\n"
    "  0  499      568     1101      1,048,576  1050111      0  +8.035        good  counted         "
    "#20240229123456789SURVEYDESK0100042001  ADS\\DATA\\P2\n"
    "  1  1050111  912     1051057         120  1051611      1  -             BAD   counted         "
    "#20240229123456789SURVEYDESK0100043002  ADS\\DATA\\EDIT\n"
    "2 chunks, 1 with a bad sum; clean: all 1,051,611 bytes read\n")
NAMES = ["row", "serial", "place", "header", "contents", "bytes", "end", "dependencies", "offset", "multichunk", "good",
         "sub_format", "ending"]
VALUES = [[0, FIRST, 499, 568, 1101, 1048576, 1050111, 0, 80350000000, False, True, "ADS\\DATA\\P2", "counted"],
          [1, SECOND, 1050111, 912, 1051057, 120, 1051611, 1, 0, False, False, "ADS\\DATA\\EDIT", "counted"]]
OBJECT = {"file": "survey.ads", "bytes": 1051611, "strategy": "NUL", "mark": MARK.hex(), "header_good": True,
          "count": 2, "stop": 1051611, "number": 0, "words": None, "clean": True, "being_written": False,
          "rows": [dict(zip(NAMES, row)) for row in VALUES]}


def as_text(value: object) -> str:
    return str(value).lower() if isinstance(value, bool) else str(value)


class Formats(CommandTest):
    def setUp(self) -> None:
        super().setUp()
        self.path("survey.ads", SURVEY)

    def test_table(self) -> None:
        self.assertEqual(self.expect(0, "list", "survey.ads").output, TABLE)

    def test_tsv(self) -> None:
        lines = ["\t".join(NAMES)] + ["\t".join(map(as_text, row)) for row in VALUES]
        self.assertEqual(self.expect(0, "list", "--format", "tsv", "survey.ads").lines, lines)

    def test_csv(self) -> None:
        found = list(csv.reader(io.StringIO(self.expect(0, "list", "--format", "csv", "survey.ads").output)))
        self.assertEqual(found, [NAMES] + [[as_text(value) for value in row] for row in VALUES])

    def test_json(self) -> None:
        output = self.expect(0, "list", "--format", "json", "survey.ads").output
        self.assertEqual(output, json.dumps(OBJECT) + "\n")

    def test_several_files(self) -> None:
        self.path("b.ads", chunks(b"abc"))
        table = self.expect(0, "list", "survey.ads", "b.ads").output
        self.assertTrue(table.startswith(TABLE + "\nb.ads: LLC, no mark, header good\nrow "), table)
        lines = self.expect(0, "list", "--format", "json", "b.ads", "survey.ads").lines
        self.assertEqual([json.loads(line)["file"] for line in lines], ["b.ads", "survey.ads"])
        lines = self.expect(0, "list", "--format", "tsv", "b.ads", "survey.ads").lines
        self.assertEqual([line.split("\t")[:2] for line in lines],
                         [["file", "row"], ["b.ads", "0"], ["survey.ads", "0"], ["survey.ads", "1"]])
        lines = self.expect(0, "list", "--format", "csv", "b.ads", "survey.ads").lines
        self.assertEqual([line.split(",")[:2] for line in lines],
                         [["file", "row"], ["b.ads", "0"], ["survey.ads", "0"], ["survey.ads", "1"]])

    def test_being_written(self) -> None:
        with open(self.path("survey.ads")) as writer:
            fcntl.flock(writer, fcntl.LOCK_EX)
            first = self.expect(0, "list", "survey.ads").lines[0]
            self.assertEqual(first, "survey.ads: NUL, mark of 90 bytes, header good, being written")
            found = json.loads(self.expect(0, "list", "--format", "json", "survey.ads").output)
            self.assertEqual(found, OBJECT | {"being_written": True})
            self.assertEqual(self.expect(0, "list", "--format", "tsv", "survey.ads").errors,
                             "ads: survey.ads: being written\n")
            fcntl.flock(writer, fcntl.LOCK_SH)
            self.assertEqual(self.expect(0, "list", "survey.ads").output, TABLE)


class Endings(CommandTest):
    """How the end was found: an open chunk, a counted one with the mark in its data, a MultiChunk, a bad sum."""

    def setUp(self) -> None:
        super().setUp()
        minis = multi(MARK, THIRD, [Type("P2/91", "ADS\\DATA\\DEPTH")], [("P2/91", b"12345")])
        self.path("a.ads", header("NUL", MARK) + plain(MARK, FIRST, b"log", is_open=True)
                  + plain(MARK, SECOND, b"x" + MARK) + minis + plain(MARK, FOURTH, b"", is_open=True, off=1))
        self.right = ["found", "counted", "by mini-chunks", "found"]

    def test_table(self) -> None:
        lines = self.expect(0, "list", "a.ads").lines[1:-1]
        at = lines[0].index
        self.assertEqual([line[at("ending"):at("serial")].strip() for line in lines[1:]], self.right)
        self.assertEqual([line[at("sum"):at("ending")].strip() for line in lines[1:]], ["good", "good", "good", "BAD"])

    def test_for_programs(self) -> None:
        tsv = [line.split("\t") for line in self.expect(0, "list", "--format", "tsv", "a.ads").lines]
        self.assertEqual([line[NAMES.index("ending")] for line in tsv], ["ending"] + self.right)
        table = list(csv.DictReader(io.StringIO(self.expect(0, "list", "--format", "csv", "a.ads").output)))
        self.assertEqual([row["ending"] for row in table], self.right)
        found = json.loads(self.expect(0, "list", "--format", "json", "a.ads").output)
        self.assertEqual([row["ending"] for row in found["rows"]], self.right)


class Rows(CommandTest):
    def rows(self, *options: str) -> list[int]:
        lines = self.expect(0, "list", "--format", "tsv", *options, "a.ads").lines
        return [int(line.split("\t")[0]) for line in lines[1:]]

    def test_ranges(self) -> None:
        self.path("a.ads", chunks(b"a", b"b", b"c", b"d", b"e"))
        for given, rows in {"1:3": [1, 2], ":2": [0, 1], "3:": [3, 4], "2": [2], ":": [0, 1, 2, 3, 4], "-2:": [3, 4],
                            "-1": [4], "9": [], "4:2": [], "3:99": [3, 4]}.items():
            with self.subTest(given):
                self.assertEqual(self.rows(f"--rows={given}"), rows)
        for given in ("x", "1:x", "", "1:2:3"):
            self.assertIn("isn't A:B", self.expect(2, "list", f"--rows={given}", "a.ads").errors)

    def test_bad(self) -> None:
        self.path("a.ads", header("LLC", b"") + b"".join(
            plain(b"", serial("%05d" % each), b"", off=7 * (each % 2)) for each in range(4)))
        self.assertEqual(self.rows("--bad"), [1, 3])
        self.assertEqual(self.rows("--bad", "--rows=0:3"), [1])
        table = self.expect(0, "list", "--bad", "a.ads").lines
        self.assertEqual(len(table), 5)
        self.assertEqual(table[-1], "4 chunks, 2 with bad sums; clean: all 3,743 bytes read")

    def test_columns_stay_aligned(self) -> None:
        wide = head(when=times(offset="-2359.9999999999"), specific=bytes(1234567))
        multichunk = multi(b"", THIRD, [Type("P2/91", "ADS\\DATA\\DEPTH")], [("P2/91", b"12345")])
        standard = head(when=times(standard="NUL"))
        self.path("a.ads", header("LLC", b"") + plain(b"", FIRST, b"", wide) + plain(b"", SECOND, b"a") + multichunk
                  + plain(b"", FOURTH, b"", standard))
        lines = self.expect(0, "list", "a.ads").lines[1:-1]
        at = lines[0].index
        self.assertEqual({line[at("serial")] for line in lines[1:]}, {"#"})
        self.assertEqual([line[at("offset"):at("sum")].strip() for line in lines[1:]],
                         ["-86340.9999999999", "+8.035", "+8.035", "-"])
        self.assertEqual([line[at("header"):at("contents")].strip() for line in lines[1:]],
                         ["1235135", "568", "568", "568"])


class NotClean(CommandTest):
    def test_last_line_and_status(self) -> None:
        self.path("a.ads", chunks(b"abc", b"xyz")[:-100] + b"x" * 100)
        last = self.expect(1, "list", "a.ads").lines[-1]
        self.assertEqual(last, "1 chunk; not clean: stops at byte 1,178 with 5 (a label, line feed, mark or listed "
                         "word differs); 859 bytes behind it are not in the table")
        found = json.loads(self.expect(1, "list", "--format", "json", "a.ads").output)
        self.assertEqual([found[name] for name in ("clean", "number", "stop", "count")], [False, 5, 1178, 1])
        self.assertEqual(found["words"], "a label, line feed, mark or listed word differs")

    def test_no_header(self) -> None:
        self.path("a.ads", b"F")
        self.assertEqual(self.expect(1, "list", "a.ads").lines, [
            "a.ads: no whole header", "0 chunks; not clean: stops at byte 0 with 4 (the bytes end too soon); 1 byte "
            "behind it is not in the table"])
        found = json.loads(self.expect(1, "list", "--format", "json", "a.ads").output)
        self.assertEqual([found[name] for name in ("strategy", "mark", "header_good")], [None, None, False])

    def test_no_bytes(self) -> None:
        """An empty table, in every format; it isn't clean."""
        self.path("a.ads", b"")
        self.assertEqual(self.expect(1, "list", "a.ads").lines, ["a.ads: no header", "0 chunks; not clean: no bytes"])
        for form in ("tsv", "csv"):
            self.assertEqual(len(self.expect(1, "list", "--format", form, "a.ads").lines), 1, form)
        found = json.loads(self.expect(1, "list", "--format", "json", "a.ads").output)
        self.assertEqual([found[name] for name in ("bytes", "number", "words", "stop", "count", "rows")],
                         [0, 0, None, 0, 0, []])
        self.assertEqual([found[name] for name in ("strategy", "mark", "header_good", "clean")],
                         [None, None, False, False])

    def test_others_are_listed(self) -> None:
        self.path("b.ads", chunks(b"abc"))
        ended = self.expect(3, "list", "missing.ads", "b.ads")
        self.assertEqual(ended.errors, "ads: missing.ads: no such file\n")
        self.assertEqual(ended.lines[-1], "1 chunk; clean: all 1,178 bytes read")


class ClosedOutput(CommandTest):
    def setUp(self) -> None:
        super().setUp()
        self.path("a.ads", chunks(*[b"abc"] * 2000))
        self.path("damaged.ads", chunks(*[b"abc"] * 2000)[:-1])

    def head_of(self, *arguments: str) -> Ended:
        """Reads one line of what the command prints, and closes the pipe."""
        with self.start(*arguments) as process:
            process.stdout.readline()
            process.stdout.close()
            errors = process.stderr.read().decode()
        return Ended(process.returncode, b"", errors)

    def test_pipe_closed(self) -> None:
        for name, status in (("a.ads", 0), ("damaged.ads", 1)):
            for form in ("table", "tsv", "csv", "json"):
                with self.subTest(name, form=form):
                    ended = self.head_of("list", "--format", form, name)
                    self.assertEqual((ended.status, ended.errors), (status, ""))

    def test_closed_from_the_start(self) -> None:
        for redirected in (">&-", ">&- 2>&-", "<&- >&- 2>&-"):
            for name, status in (("a.ads", 0), ("damaged.ads", 1)):
                command = ["sh", "-c", f'"$@" {redirected}', "sh", *ADS, "list", name]
                ended = subprocess.run(command, cwd=self.folder, env=environment(), stderr=subprocess.PIPE, timeout=30)
                self.assertEqual((ended.returncode, ended.stderr), (status, b""))

    def test_full(self) -> None:
        with open("/dev/full", "wb") as full:
            for arguments in ("list a.ads", "check a.ads", "fields", "--help", "contents a.ads 0"):
                ended = self.expect(3, *arguments.split(), stdout=full)
                self.assertEqual(ended.errors, "ads: standard output: no space left on device\n")


class Large(CommandTest):
    def test_rows_go_out_as_they_are_made(self) -> None:
        from large_files import empty_chunks
        self.path("a.ads", empty_chunks(100_000))
        with self.start("list", "--format", "tsv", "a.ads") as process:
            process.stdout.readline()
            self.assertTrue(process.stdout.readline().startswith(b"0\t#"))
            self.assertIsNone(process.poll())
            count = 1 + sum(1 for _ in process.stdout)
        self.assertEqual((process.returncode, count), (0, 100_000))
        with self.start("list", "a.ads") as process:
            self.assertIn(b"a.ads: LLC", process.stdout.readline())
            process.stdout.close()
        self.assertEqual(process.returncode, 0)
        self.assertEqual(os.path.getsize(self.path("a.ads")), 319 + 100_000 * 856)


if __name__ == "__main__":
    unittest.main()
