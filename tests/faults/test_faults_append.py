"""`ads append` where the n-th write or sync fails, is interrupted or is the last: for every n, every way of failing.

After each the old bytes are untouched and the file reads with its old rows, or with the new one if the finished file
stands; the next append works, behind `ads cut-back --yes` where the file isn't clean.
"""
import unittest

from faulty import FaultTest
from running import SERIAL, chunk_options, chunks, rows
from metafile_bytes import plain, writes
from support import description

from ads_metafile import disk

OLD = chunks(b"abc", b"xyz")
DATA = b"0123456789" * 60
CHUNK = plain(b"", SERIAL, DATA)
NEW = OLD + CHUNK
PARTS = writes(CHUNK, DATA, b"")
CALLS = ["pwrite", "fdatasync"] * 3
ENDS = [len(OLD) + sum(map(len, PARTS[:part])) for part in range(4)]
SAID = f"row 2 appended: {ENDS[0]:,} to {ENDS[3]:,}, serial {SERIAL}\n"
CUT_BACK = f"; nothing was appended, the file is cut back to its old end, byte {ENDS[0]:,}\n"
WORDS = {"eio": "input/output error", "enospc": "no space left on device"}


def is_write(call: int) -> bool:
    return call % 2 == 1


def written(call: int, way: str) -> bytes:
    """The bytes behind the old end where the process goes no further than this call."""
    part = (call - 1) // 2
    before = len(b"".join(PARTS[:part])) + (0 if is_write(call) else len(PARTS[part]))
    if is_write(call) and way.endswith("half"):
        return CHUNK[:before + len(PARTS[part]) // 2]
    return CHUNK[:before + len(PARTS[part])] if is_write(call) and way.endswith("after") else CHUNK[:before]


class AppendTest(FaultTest):
    def setUp(self) -> None:
        super().setUp()
        self.file = self.path("a.ads", OLD)
        (self.folder.parent / "data").write_bytes(DATA)

    def append(self, faults: str) -> tuple[int, str, str]:
        self.file.write_bytes(OLD)
        ended = self.faulty(faults, "append", self.file, *chunk_options(), f"--contents={self.folder.parent / 'data'}")
        return ended.status, ended.output, ended.errors

    def stands(self, data: bytes) -> None:
        """The file is these bytes and reads as demanded. The next append works."""
        self.assertEqual(self.file.read_bytes(), data)
        self.assertEqual(rows(data), rows(NEW) if data == NEW else rows(OLD))
        clean = data in (OLD, NEW)
        if not clean:
            with self.assertRaisesRegex(Exception, "refused with 12"):
                disk.append(str(self.file), description(950))
            self.expect(0, "cut-back", "--yes", self.file)
            copy = self.path(f"a.ads.behind-{len(OLD)}")
            self.assertEqual((self.file.read_bytes(), copy.read_bytes()), (OLD, data[len(OLD):]))
            copy.unlink()
        before = data if clean else OLD
        done = disk.append(str(self.file), description(950), b"the next")
        self.assertEqual((done.row, self.file.read_bytes()[:done.old]), (3 if data == NEW else 2, before))
        self.assertEqual(self.names(), ["a.ads"])

    def each(self, *ways: str, only: str = "") -> list[tuple[int, str]]:
        """Every call with every way."""
        return [(call, way) for call in range(1, 7) for way in ways if only in CALLS[call - 1]]


class NoFault(AppendTest):
    def test_the_calls(self) -> None:
        self.assertEqual(self.append(""), (0, SAID, ""))
        self.assertEqual(self.calls, CALLS)
        self.stands(NEW)

    def test_no_contents(self) -> None:
        (self.folder.parent / "data").write_bytes(b"")
        self.assertEqual(self.append("")[0], 0)
        self.assertEqual(self.calls, ["pwrite", "fdatasync", "fdatasync", "pwrite", "fdatasync"])


class Failing(AppendTest):
    def test_a_call_fails(self) -> None:
        ways = self.each("eio", "enospc") + self.each("half-eio", "half-enospc", only="pwrite")
        for call, way in ways:
            with self.subTest(call=call, way=way):
                words = WORDS[way.removeprefix("half-")]
                self.assertEqual(self.append(f"{call}:{way}"),
                                 (3, "", f"ads: {self.file}: writing failed ({words}){CUT_BACK}"))
                self.assertEqual(self.calls, CALLS[:call] + ["ftruncate", "fsync"])
                self.stands(OLD)

    def test_a_call_goes_on(self) -> None:
        """A short write is taken up where it ended, an interrupted call is made again."""
        for call, way in self.each("short", only="pwrite") + self.each("eintr"):
            with self.subTest(call=call, way=way):
                self.assertEqual(self.append(f"{call}:{way}"), (0, SAID, ""))
                self.assertEqual(self.calls, CALLS[:call] + CALLS[call - 1:])
                self.stands(NEW)

    def test_cutting_back_fails_too(self) -> None:
        for call in range(1, 7):
            for second in (1, 2):
                with self.subTest(call=call, second=second):
                    way = "half-enospc" if is_write(call) else "enospc"
                    said = (f"ads: {self.file}: writing failed (no space left on device), and cutting back to the old "
                            f"end, byte {ENDS[0]:,}, failed too (input/output error): the row may stand; run "
                            "`ads check`\n")
                    self.assertEqual(self.append(f"{call}:{way} {call + second}:eio"), (3, "", said))
                    self.stands(OLD if second == 2 else OLD + written(call, "half"))


class Ended(AppendTest):
    def test_killed(self) -> None:
        for call, way in self.each("kill-before", "kill-after") + self.each("kill-half", only="pwrite"):
            with self.subTest(call=call, way=way):
                self.assertEqual(self.append(f"{call}:{way}"), (-9, "", ""))
                self.stands(OLD + written(call, way))

    def test_killed_while_it_is_cut_back(self) -> None:
        for faults, left in (("3:half-eio 4:kill-before", written(3, "half")), ("3:half-eio 4:kill-after", b""),
                             ("3:half-eio 5:kill-before", b""), ("6:eio 7:kill-before", CHUNK)):
            with self.subTest(faults):
                self.assertEqual(self.append(faults), (-9, "", ""))
                self.stands(OLD + left)

    def test_signals_are_held_back(self) -> None:
        for call, way in self.each("int", "term", "hup"):
            with self.subTest(call=call, way=way):
                self.assertEqual(self.append(f"{call}:{way}"), (0, SAID, ""))
                self.assertEqual(self.file.read_bytes(), NEW)


class SomebodyElse(AppendTest):
    def test_the_file_changes_between_two_writes(self) -> None:
        """Nothing more is touched: what stands is what this append wrote, and what somebody else did."""
        for part, call in enumerate((2, 4, 6), 1):
            left = OLD + CHUNK[:ENDS[part] - ENDS[0]]
            for way, found in (("grow", left + b"x"), ("cut", left[:10])):
                with self.subTest(call=call, way=way):
                    said = (f"ads: {self.file}: has {len(found):,} bytes where {len(left):,} were left: somebody else "
                            "writes to it without the lock. Nothing more was touched; run `ads check`\n")
                    self.assertEqual(self.append(f"{call}:{way}"), (3, "", said))
                    self.assertEqual(self.file.read_bytes(), found)
                    self.assertEqual(self.calls, CALLS[:call])

    def test_and_a_sync_fails(self) -> None:
        for way, found in (("grow-eio", OLD + PARTS[0] + b"x"), ("cut-eio", OLD[:10])):
            with self.subTest(way):
                said = (f"ads: {self.file}: writing failed (input/output error), and the file has {len(found):,} "
                        "bytes: somebody else writes to it without the lock. It wasn't cut back; run `ads check`\n")
                self.assertEqual(self.append(f"2:{way}"), (3, "", said))
                self.assertEqual(self.file.read_bytes(), found)



if __name__ == "__main__":
    unittest.main()
