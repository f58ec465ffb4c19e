"""`ads check`: one line for each file, the status over all of them, --quiet, --json, and files that can't be read."""
import fcntl
import json
import os
import unittest

from running import CommandTest, chunks
from metafile_bytes import header, plain, serial

KEYS = ["file", "bytes", "strategy", "mark", "header_good", "count", "stop", "number", "words", "clean",
        "being_written", "bad_rows", "good", "error"]


def bad_sums(*bad: int, rows: int = 12, off: int = 0) -> bytes:
    return header("LLC", b"", off) + b"".join(
        plain(b"", serial("%05d" % row), b"", off=1 if row in bad else 0) for row in range(rows))


class Lines(CommandTest):
    def setUp(self) -> None:
        super().setUp()
        self.path("a.ads", bad_sums())
        self.path("b.ads", bad_sums(7))
        self.path("c.ads", bad_sums()[:4096])
        self.path("e.ads", bad_sums(0, 2, off=1))
        self.path("f.ads", bad_sums(*range(12)))
        self.path("g.ads", bad_sums(2)[:4096])
        self.path("h.ads", bad_sums(off=1))

    def test_a_line_for_each(self) -> None:
        ended = self.expect(3, "check", "a.ads", "b.ads", "c.ads", "d.ads", "e.ads", "f.ads", "g.ads", "h.ads", ".")
        stops = "not clean: stops at byte 3,743 with 4 (the bytes end too soon)"
        self.assertEqual(ended.lines, [
            "a.ads: clean, 12 chunks, all sums good",
            "b.ads: clean, 12 chunks, 1 bad sum: row 7",
            f"c.ads: {stops}",
            "d.ads: no such file",
            "e.ads: clean, 12 chunks, bad header sum, 2 bad sums: rows 0, 2",
            "f.ads: clean, 12 chunks, 12 bad sums: rows 0, 1, 2, 3, 4, 5, 6, 7, 8, 9 and 2 more",
            f"g.ads: {stops}, 1 bad sum: row 2",
            "h.ads: clean, 12 chunks, bad header sum",
            ".: is a directory"])

    def test_no_bytes(self) -> None:
        self.path("none.ads", b"")
        self.assertEqual(self.expect(1, "check", "a.ads", "none.ads").lines,
                         ["a.ads: clean, 12 chunks, all sums good", "none.ads: not clean: no bytes"])
        found = json.loads(self.expect(1, "check", "--json", "none.ads").output)
        self.assertEqual([found[key] for key in ("bytes", "number", "words", "clean", "good", "bad_rows", "error")],
                         [0, 0, None, False, False, [], None])

    def test_status(self) -> None:
        for files, status in ((["a.ads"], 0), (["a.ads", "b.ads"], 1), (["c.ads", "a.ads"], 1), (["h.ads"], 1),
                              (["d.ads", "a.ads"], 3), (["b.ads", "d.ads", "c.ads"], 3)):
            self.expect(status, "check", *files)

    def test_quiet(self) -> None:
        self.assertEqual(self.expect(0, "check", "--quiet", "a.ads").output, "")
        lines = self.expect(3, "check", "--quiet", "a.ads", "b.ads", "d.ads").lines
        self.assertEqual(lines, ["b.ads: clean, 12 chunks, 1 bad sum: row 7", "d.ads: no such file"])

    def test_json(self) -> None:
        lines = self.expect(3, "check", "--json", "a.ads", "e.ads", "c.ads", "d.ads").lines
        found = [json.loads(line) for line in lines]
        self.assertEqual([list(each) for each in found], [KEYS] * 4)
        self.assertEqual([each["good"] for each in found], [True, False, False, False])
        self.assertEqual([each["bad_rows"] for each in found], [[], [0, 2], [], None])
        self.assertEqual([each["error"] for each in found], [None, None, None, "no such file"])
        self.assertEqual([found[2][key] for key in ("clean", "number", "stop", "words")],
                         [False, 4, 3743, "the bytes end too soon"])

    def test_being_written(self) -> None:
        with open(self.path("a.ads")) as writer:
            fcntl.flock(writer, fcntl.LOCK_EX)
            self.assertEqual(self.expect(0, "check", "a.ads").lines,
                             ["a.ads: clean, 12 chunks, all sums good, being written"])
            self.assertTrue(json.loads(self.expect(0, "check", "--json", "a.ads").output)["being_written"])

    def test_all_are_judged_behind_a_closed_pipe(self) -> None:
        with self.start("check", *["a.ads"] * 3, "d.ads") as process:
            process.stdout.close()
            errors = process.stderr.read()
        self.assertEqual((process.returncode, errors), (3, b""))


class Unreadable(CommandTest):
    def test_over_the_limit(self) -> None:
        path = self.path("large.ads", b"")
        os.truncate(path, 2**30 + 1)
        said = ("refused with 11 (a byte buffer is over 2^30 bytes, or the length is over the buffer's): the file has "
                "1,073,741,825 bytes, and at most 1,073,741,824 are read")
        self.assertEqual(self.expect(1, "check", "large.ads").lines, [f"large.ads: {said}"])
        for arguments in (("list", path), ("contents", path, "0"), ("parents", path), ("cut-back", path)):
            self.assertEqual(self.expect(1, *arguments).errors, f"ads: {path}: {said}\n")

    def test_without_permission(self) -> None:
        path = self.path("a.ads", chunks(b"abc"))
        path.chmod(0)
        self.assertEqual(self.expect(3, "check", "a.ads", unprivileged=True).lines, ["a.ads: permission denied"])
        self.assertEqual(self.expect(3, "list", "a.ads", unprivileged=True).errors, "ads: a.ads: permission denied\n")

    def test_no_regular_file(self) -> None:
        os.mkfifo(self.path("pipe"))
        self.assertEqual(self.expect(3, "check", "pipe", "/dev/zero").lines,
                         ["pipe: isn't a regular file", "/dev/zero: isn't a regular file"])
        self.assertEqual(self.expect(3, "list", "pipe").errors, "ads: pipe: isn't a regular file\n")


if __name__ == "__main__":
    unittest.main()
