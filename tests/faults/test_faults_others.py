"""`ads begin`, `ads pack`, `ads unpack`, `ads cut-back` and `-o OUT` where the n-th call to the disk fails or is the
last, for every n."""
import unittest

from faulty import FaultTest
from running import SERIAL, chunks, header_options, rows
from metafile_bytes import plain

import ads_metafile

BEGIN = ["pwrite", "fsync", "link", "unlink", "fsync"]
BEGUN = ads_metafile.begin(strategy="LLC", serial=SERIAL, recorded="20240229", recorder="RECORDER", written="20240301",
                           writer="DESK")
OLD = chunks(b"abc", b"xyz")
LEFT = plain(b"", SERIAL, b"data" * 500)[:1000]
CUT_BACK = ["pwrite", "fsync", "fsync", "ftruncate", "fsync"]
COPY = f"a.ads.behind-{len(OLD)}"
IO_ERROR = "input/output error"


class Begin(FaultTest):
    done = "begun"
    data = BEGUN

    def setUp(self) -> None:
        super().setUp()
        self.file = self.path("a.ads")
        self.given = ["begin", self.file, *header_options()]

    def begin(self, faults: str) -> tuple[int, str]:
        for name in self.names():
            self.path(name).unlink()
        ended = self.faulty(faults, *self.given)
        return ended.status, ended.errors

    def stands(self, whole: bool, temporary: int) -> None:
        """The name is free, and can be begun, or names the whole file; so many temporary names are left."""
        names = self.names()
        self.assertEqual(sum(name.startswith(".ads-begin-") for name in names), temporary)
        self.assertEqual(len(names), temporary + whole)
        if not whole:
            self.expect(0, *self.given)
        self.assertEqual(self.file.read_bytes(), self.data)

    def test_the_calls(self) -> None:
        self.assertEqual(self.begin(""), (0, ""))
        self.assertEqual(self.calls, BEGIN)
        self.stands(True, 0)

    def test_a_call_fails(self) -> None:
        for fault in ("1:eio", "1:half-eio", "2:eio", "3:eio"):
            with self.subTest(fault):
                self.assertEqual(self.begin(fault), (3, f"ads: {self.file}: {IO_ERROR}; nothing was {self.done}\n"))
                self.stands(False, 0)
        self.assertEqual(self.begin("4:eio"), (0, ""))
        self.stands(True, 1)
        self.assertEqual(self.begin("5:eio"), (3, f"ads: {self.file}: is {self.done} and stands, but its folder "
                                               f"couldn't be synced ({IO_ERROR}): after a power failure the name may "
                                               "be missing\n"))
        self.stands(True, 0)
        self.assertEqual(self.begin("1:enospc 2:eio")[0], 3)
        self.assertEqual(self.calls, ["pwrite", "unlink"])
        self.stands(False, 1)

    def test_a_call_goes_on(self) -> None:
        for fault in ("1:short", "1:eintr", "2:eintr", "1:int", "2:term", "3:hup", "4:int", "5:term"):
            with self.subTest(fault):
                self.assertEqual(self.begin(fault), (0, ""))
                self.stands(True, 0)

    def test_killed(self) -> None:
        for call in range(1, 6):
            for way in ("kill-before", "kill-half", "kill-after")[::1 if call == 1 else 2]:
                with self.subTest(call=call, way=way):
                    self.assertEqual(self.begin(f"{call}:{way}"), (-9, ""))
                    linked = call > 3 or (call, way) == (3, "kill-after")
                    removed = call > 4 or (call, way) == (4, "kill-after")
                    self.stands(linked, 0 if removed else 1)


class Pack(Begin):
    """A new file as begin makes it."""

    done = "written"
    data = ads_metafile.pack(OLD)

    def setUp(self) -> None:
        super().setUp()
        source = self.folder.parent / "a.ads"
        source.write_bytes(OLD)
        self.given = ["pack", source, self.file]


class Unpack(Begin):
    done = "written"
    data = OLD

    def setUp(self) -> None:
        super().setUp()
        source = self.folder.parent / "a.blocks"
        source.write_bytes(ads_metafile.pack(OLD))
        self.given = ["unpack", source, self.file, f"--length={len(OLD)}"]


class CutBack(FaultTest):
    def cut_back(self, faults: str) -> tuple[int, str]:
        for name in self.names():
            self.path(name).unlink()
        self.file = self.path("a.ads", OLD + LEFT)
        ended = self.faulty(faults, "cut-back", "--yes", self.file)
        self.assertEqual(rows(self.file.read_bytes()), rows(OLD))
        return ended.status, ended.errors

    def stands(self, cut: bool, copy: bytes | None) -> None:
        """Cut or not, and the copy beside; cutting once more then works."""
        self.assertEqual(self.file.read_bytes(), OLD if cut else OLD + LEFT)
        self.assertEqual(self.names(), ["a.ads"] if copy is None else ["a.ads", COPY])
        if copy is not None:
            self.assertEqual(self.path(COPY).read_bytes(), copy)
        self.assertTrue(copy == LEFT or not cut)
        self.expect(0, "cut-back", "--yes", self.file)
        self.assertEqual(self.file.read_bytes(), OLD)

    def test_the_calls(self) -> None:
        self.assertEqual(self.cut_back(""), (0, ""))
        self.assertEqual(self.calls, CUT_BACK)
        self.stands(True, LEFT)

    def test_the_copy_fails(self) -> None:
        for fault in ("1:eio", "1:half-eio", "2:eio", "3:eio"):
            with self.subTest(fault):
                self.assertEqual(self.cut_back(fault), (3, f"ads: {self.folder / COPY}: the copy couldn't be written "
                                                        f"({IO_ERROR}); nothing was cut\n"))
                self.stands(False, None)

    def test_cutting_fails(self) -> None:
        for fault, cut in (("4:eio", False), ("5:eio", True)):
            with self.subTest(fault):
                self.assertEqual(self.cut_back(fault),
                                 (3, f"ads: {self.file}: cutting failed ({IO_ERROR}); run `ads check`\n"))
                self.stands(cut, LEFT)

    def test_a_call_goes_on(self) -> None:
        for fault in ("1:short", "1:eintr", "4:eintr", "1:int", "3:hup", "4:term", "5:int"):
            with self.subTest(fault):
                self.assertEqual(self.cut_back(fault), (0, ""))
                self.stands(True, LEFT)

    def test_killed(self) -> None:
        for fault, cut, copy in (("1:kill-before", False, b""), ("1:kill-half", False, LEFT[:500]),
                                 ("1:kill-after", False, LEFT), ("2:kill-before", False, LEFT),
                                 ("3:kill-after", False, LEFT), ("4:kill-before", False, LEFT),
                                 ("4:kill-after", True, LEFT), ("5:kill-before", True, LEFT)):
            with self.subTest(fault):
                self.assertEqual(self.cut_back(fault), (-9, ""))
                self.stands(cut, copy)


class Output(FaultTest):
    def test_a_new_file_is_whole_or_not_there(self) -> None:
        source, out = self.folder.parent / "a.ads", self.path("out")
        source.write_bytes(chunks(b"0123456789" * 100))
        for fault, status, said in (("1:eio", 3, f"{out}: {IO_ERROR}; nothing was written"),
                                    ("1:half-enospc", 3, f"{out}: no space left on device; nothing was written"),
                                    ("1:int", -2, "ended by SIGINT; no metafile was changed"),
                                    ("1:term", -15, "ended by SIGTERM; no metafile was changed")):
            ended = self.faulty(fault, "contents", source, "0", "-o", out)
            self.assertEqual((ended.status, ended.errors, self.names()), (status, f"ads: {said}\n", []))
        self.assertEqual(self.faulty("1:short 2:eintr", "contents", source, "0", "-o", out).status, 0)
        self.assertEqual(out.read_bytes(), b"0123456789" * 100)


if __name__ == "__main__":
    unittest.main()
