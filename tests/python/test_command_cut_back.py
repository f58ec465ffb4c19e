"""`ads cut-back`: what it shows, what it cuts, the copy beside the file, and what it doesn't cut."""
import fcntl
import os
import unittest

from running import SERIAL, CommandTest, chunk_options, chunks, rows
from metafile_bytes import header, plain

import ads_metafile

OLD = chunks(b"abc", b"xyz")
LAST = plain(b"", SERIAL, b"data " * 200)
CUT = OLD + LAST[:800]
STOPS = "not clean: stops at byte 2,037 with 4 (the bytes end too soon)"


class CutBackTest(CommandTest):
    def setUp(self) -> None:
        super().setUp()
        self.file = self.path("a.ads", CUT)

    def names(self) -> list[str]:
        return sorted(path.name for path in self.folder.iterdir())

    def refused(self, said: str, *options: str) -> None:
        """It isn't cut, and nothing else is written."""
        before, names = self.file.read_bytes(), self.names()
        self.assertEqual(self.expect(1, "cut-back", "a.ads", *options).errors, f"ads: a.ads: {said}\n")
        self.assertEqual((self.file.read_bytes(), self.names()), (before, names))


class Shown(CutBackTest):
    def test_what_would_go(self) -> None:
        self.assertEqual(self.expect(1, "cut-back", "a.ads").lines, [
            f"a.ads: {STOPS}",
            "2 rows would stay, 800 bytes from byte 2,037 on would go; the first of them:",
            "          2,037  43 68 75 6e 6b 5f 48 65 61 64 65 72 5f 4c 65 6e  Chunk_Header_Len",
            "          2,053  67 74 68 3d 30 30 30 30 30 30 30 30 30 35 33 36  gth=000000000536",
            "          2,069  0a 53 75 62 46 6f 72 6d 61 74 5f 49 44 3d 41 44  .SubFormat_ID=AD",
            "          2,085  53 5c 44 41 54 41 5c 54 45 53 54 20 20 20 20 20  S\\DATA\\TEST     ",
            '"Chunk_Header_Length=" stands 1 time in them',
            "--yes copies them beside the file and cuts them off"])
        self.assertEqual((self.file.read_bytes(), self.names()), (CUT, ["a.ads"]))

    def test_few_bytes(self) -> None:
        self.file.write_bytes(OLD + b"\0\xff")
        lines = self.expect(1, "cut-back", "a.ads").lines
        self.assertEqual(lines[1:-1], [
            "2 rows would stay, 2 bytes from byte 2,037 on would go; the first of them:",
            "          2,037  00 ff                                            ..",
            '"Chunk_Header_Length=" stands 0 times in them'])

    def test_nothing_to_cut(self) -> None:
        self.file.write_bytes(OLD)
        for options in ((), ("--yes",), ("--yes", "--force")):
            self.assertEqual(self.expect(0, "cut-back", "a.ads", *options).output,
                             "a.ads: clean, 2 chunks; nothing is to be cut\n")
        self.assertEqual((self.file.read_bytes(), self.names()), (OLD, ["a.ads"]))


class Cut(CutBackTest):
    def test_a_copy_is_kept(self) -> None:
        self.file.chmod(0o640)
        self.assertEqual(self.expect(0, "cut-back", "--yes", "a.ads").output,
                         "a.ads: cut at byte 2,037, 800 bytes went; a copy is a.ads.behind-2037; 2 chunks stay\n")
        self.assertEqual((self.file.read_bytes(), self.names()), (OLD, ["a.ads", "a.ads.behind-2037"]))
        copy = self.path("a.ads.behind-2037")
        self.assertEqual((copy.read_bytes(), copy.stat().st_mode & 0o777), (CUT[len(OLD):], 0o640))
        self.path("data", b"12345")
        self.expect(0, "append", "a.ads", *chunk_options(), "--contents=data")
        self.assertEqual(len(rows(self.file.read_bytes())), 3)

    def test_never_over_an_old_copy(self) -> None:
        self.path("a.ads.behind-2037", b"an old one")
        self.path("a.ads.behind-2037-2").symlink_to("nowhere")
        self.assertIn("a copy is a.ads.behind-2037-3;", self.expect(0, "cut-back", "--yes", "a.ads").output)
        self.assertEqual(self.path("a.ads.behind-2037").read_bytes(), b"an old one")
        self.assertEqual(self.path("a.ads.behind-2037-3").read_bytes(), CUT[len(OLD):])
        self.assertFalse(self.path("nowhere").exists())

    def test_without_a_copy(self) -> None:
        self.assertEqual(self.expect(0, "cut-back", "--yes", "--no-copy", "a.ads").output,
                         "a.ads: cut at byte 2,037, 800 bytes went; no copy was made; 2 chunks stay\n")
        self.assertEqual((self.file.read_bytes(), self.names()), (OLD, ["a.ads"]))

    def test_no_copy_no_cut(self) -> None:
        self.file.chmod(0o666)
        self.folder.chmod(0o555)
        ended = self.expect(3, "cut-back", "--yes", "a.ads", unprivileged=True)
        self.assertEqual(ended.errors, "ads: a.ads.behind-2037: the copy couldn't be written (permission denied); "
                         "nothing was cut\n")
        self.assertEqual((self.file.read_bytes(), self.names()), (CUT, ["a.ads"]))


class Refused(CutBackTest):
    def test_no_whole_header(self) -> None:
        for data, number in ((OLD[:200], 4), (b"F", 4), (b"x" * 400, 1)):
            self.file.write_bytes(data)
            stops = f"stops at byte 0 with {number} ({ads_metafile.WORDS[number]})"
            for options in ((), ("--yes",), ("--yes", "--force", "--no-copy")):
                self.refused(f"not clean: {stops}; without a whole header nothing is cut back", *options)

    def test_no_bytes(self) -> None:
        self.file.write_bytes(b"")
        for options in ((), ("--yes",), ("--yes", "--force", "--no-copy")):
            self.refused("not clean: no bytes; there is nothing to cut", *options)

    def test_whole_chunks_may_be_behind(self) -> None:
        may_be = ("whole chunks may be among them, which is not what a cut append leaves. Nothing was cut; --force "
                  "cuts all the same")
        repeated = OLD + plain(b"", SERIAL, b"") + plain(b"", SERIAL, b"x")
        damaged = header("LLC", b"") + plain(b"", SERIAL, b"").replace(b"TXT", b"ASC") + OLD[319:]
        for data, stop, number, left in ((repeated, 2893, 9, 857), (damaged, 319, 5, 2574),
                                         (OLD + b"xChunk_Header_Length=", 2037, 5, 21)):
            self.file.write_bytes(data)
            stops = f"stops at byte {stop:,} with {number} ({ads_metafile.WORDS[number]})"
            self.refused(f"not clean: {stops}; {left:,} bytes stand behind it, and {may_be}", "--yes")
            self.assertIn("--yes cuts them only with --force", self.expect(1, "cut-back", "a.ads").lines[-1])
            self.expect(0, "cut-back", "--yes", "--force", "a.ads")
            self.assertEqual(self.file.read_bytes(), data[:-left])

    def test_the_lock(self) -> None:
        with open(self.file) as writer:
            fcntl.flock(writer, fcntl.LOCK_SH)
            ended = self.expect(3, "cut-back", "--yes", "--wait=0", "a.ads")
        self.assertIn("another program holds the lock; nothing was written", ended.errors)
        self.assertEqual(self.names(), ["a.ads"])

    def test_missing_or_no_file(self) -> None:
        self.assertEqual(self.expect(3, "cut-back", "missing").errors, "ads: missing: no such file\n")
        self.assertEqual(self.expect(3, "cut-back", os.curdir).errors, "ads: .: is a directory\n")


if __name__ == "__main__":
    unittest.main()
