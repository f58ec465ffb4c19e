"""A file in blocks of 512 bytes: `pack` and `unpack`, `ads pack` and `ads unpack`.

What is right in a block, the library says, and tests/compare shows it; here is what package and command make of that.
"""
from __future__ import annotations

import array
import io
import mmap
import os
import random
import resource
import subprocess
import sys
import unittest
from contextlib import redirect_stderr
from unittest import mock

from running import CommandTest, Ended, environment, header_options
from support import REPOSITORY

sys.path.insert(0, str(REPOSITORY / "samples"))

import ads_metafile  # noqa: E402
from ads_metafile import Refused, _blocks, pack, unpack  # noqa: E402
from ads_metafile.command import main  # noqa: E402
from make import block, in_blocks, packed, samples  # noqa: E402

SAMPLES = samples() | in_blocks()
FILE = SAMPLES["one-chunk.ads"]
BLOCKS = packed(FILE)
HINT = "the copy is damaged, or was never a packed file; nothing was written"
LENGTHS = ("unpacks to {:,} bytes, and --length says {:,}: the copy isn't whole, or the length is another file's; "
           "nothing was written")

NO_LINKS = """
import errno, os, sys
sys.path.insert(0, sys.argv.pop(1))
from ads_metafile.command import entry
def link(*names):
    raise OSError(errno.EPERM, "")
os.link = link
entry()
"""


def summed(data: bytes) -> bytes:
    """A block of these 510 bytes."""
    return data + (sum(data) % 65536).to_bytes(2, "big")


def wrong() -> list[tuple[int, bytes]]:
    """Packed files that aren't, and the number of each."""
    first, second, third = BLOCKS[:512], BLOCKS[512:1024], BLOCKS[1024:]
    other_sum = second[:511] + bytes([second[511] ^ 1])
    other_number = summed(first[:4] + second[4:510])
    return [
        (27, first[:100] + b"?" + first[101:] + second + third), (27, first + other_sum + third),
        (27, first + other_sum + third + b"x"), (27, first + bytes(510) + b"\0\1" + third),
        (28, first + other_number + third), (28, first + third), (28, second + third), (28, first + third + second),
        (28, first + bytes(512) + third), (28, first + second + bytes(512)),
        (28, first + summed(first[:4] + b"\xff\xff" + first[6:510]) + third),
        (29, b""), (29, first[:511]), (29, BLOCKS + b"x"), (29, BLOCKS[:-1]), (29, BLOCKS + first), (29, bytes(1024)),
        (29, bytes(512) + second + third), (29, first + block(1, b"")), (29, first + block(1, b"x" * 503) + third),
        (29, summed(first[:4] + b"\x01\xf9" + first[6:510])), (29, summed(third[:3] + bytes(3) + third[6:510])),
        (29, first + second + summed(third[:509] + b"\1")),
    ]


class Package(unittest.TestCase):
    def test_by_hand(self) -> None:
        made = bytes.fromhex("0000000001F8" + 504 * "FF" + "F701" + "000000010001FF" + 503 * "00" + "0101")
        self.assertEqual((pack(b"\xff" * 505), unpack(made)), (made, b"\xff" * 505))
        self.assertEqual((pack(b""), unpack(bytes(512))), (bytes(512), b""))

    def test_every_sample(self) -> None:
        for name, data in SAMPLES.items():
            self.assertEqual(pack(data), packed(data), name)
            self.assertEqual(unpack(pack(data)), data, name)

    def test_lengths(self) -> None:
        chance = random.Random(7)
        for length in (0, 1, 503, 504, 505, 1007, 1008, 1009, 504 * 65_537):
            data = chance.randbytes(length)
            made = pack(data)
            self.assertEqual(len(made), 512 * max((length + 503) // 504, 1))
            self.assertTrue(made == packed(data) and unpack(made) == data, length)

    def test_lost_blocks(self) -> None:
        """The last ones missing, and the only one as zeros, can't be seen; any other loss is."""
        made = pack(bytes(range(250)) * 8)
        blocks = [made[at:at + 512] for at in range(0, len(made), 512)]
        self.assertEqual(len(blocks), 4)
        for lost in range(4):
            with self.subTest(lost):
                self.refused(28 if lost else 29, b"".join(blocks[:lost] + [bytes(512)] + blocks[lost + 1:]))
                if lost < 3:
                    self.refused(28, b"".join(blocks[:lost] + blocks[lost + 1:]))
                    self.assertEqual(unpack(b"".join(blocks[:lost + 1])), (bytes(range(250)) * 8)[:504 * (lost + 1)])
        self.assertEqual(unpack(bytes(len(pack(b"a begun file")))), b"")

    def refused(self, number: int, data: bytes) -> Refused:
        with self.assertRaises(Refused) as caught:
            unpack(data)
        self.assertEqual(caught.exception.number, number)
        return caught.exception

    def test_refused(self) -> None:
        names = {27: "BLOCK_SUM", 28: "BLOCK_NUMBER", 29: "BLOCK_USE"}
        for number, data in wrong():
            with self.subTest(number, data=data[:8]):
                error = self.refused(number, data)
                self.assertEqual((error.name, getattr(ads_metafile, error.name)), (names[number], number))
                self.assertEqual(str(error), f"refused with {number} ({ads_metafile.WORDS[number]})")

    def test_any_bytes_like(self) -> None:
        lent = bytearray(FILE)
        mapped = mmap.mmap(-1, len(FILE))
        mapped[:] = FILE
        for data in (FILE, lent, memoryview(lent), memoryview(FILE).cast("B", (19, 62)), mapped):
            made = pack(data)
            self.assertEqual((made, type(made)), (BLOCKS, bytes))
        self.assertEqual(pack(array.array("H", FILE)), BLOCKS)
        self.assertEqual(type(unpack(bytearray(BLOCKS))), bytes)
        lent.clear()  # nothing is held
        for call in (pack, unpack):
            for given in ("text", None, 512, [0]):
                with self.assertRaises(TypeError):
                    call(given)  # type: ignore[arg-type]
            with self.assertRaisesRegex(BufferError, "copy them by bytes"):
                call(memoryview(BLOCKS)[::2])

    def test_limits(self) -> None:
        """Over 2^30 bytes, and over what can be packed; nothing of it is touched."""
        over = memoryview(ads_metafile._memory.anonymous(2**30 + 1))
        self.refused(11, over)
        for length, number, remark in ((2**30 + 1, 11, None),
                                       (2**30, 18, "the packed file would have more than 1,073,741,824 bytes"),
                                       (1_056_964_609, 18, "the packed file would have more than 1,073,741,824 bytes")):
            with self.assertRaises(Refused) as caught:
                pack(over[:length])
            self.assertEqual((caught.exception.number, caught.exception.remark), (number, remark))
        with mock.patch.object(_blocks, "MOST_BYTES", 1023):
            self.assertEqual(len(pack(bytes(504))), 512)
            self.assertRaises(Refused, pack, bytes(505))


class Command(CommandTest):
    def setUp(self) -> None:
        super().setUp()
        self.path("a.ads", FILE)
        self.path("a.blocks", BLOCKS)

    def names(self) -> list[str]:
        return sorted(path.name for path in self.folder.iterdir())

    def refused(self, status: int, said: str, *arguments: str, **more: object) -> None:
        """One line on standard error, and no name more."""
        before = {name: self.path(name).is_file() and self.path(name).read_bytes() for name in self.names()}
        ended = self.expect(status, *arguments, **more)
        self.assertEqual((ended.output, ended.errors), ("", f"ads: {said}\n"))
        self.assertEqual({name: self.path(name).is_file() and self.path(name).read_bytes() for name in self.names()},
                         before)

    def test_there_and_back(self) -> None:
        self.assertEqual(self.expect(0, "pack", "a.ads", "ä b").output,
                         "a.ads: 1,178 bytes packed into 3 blocks of 512; carry the length beside the copy: 1178\n")
        self.assertEqual(self.path("ä b").read_bytes(), BLOCKS)
        for more in ((), ("--length", "1178"), ("--length=0001178",)):
            self.assertEqual(self.expect(0, "unpack", "ä b", "c.ads", *more).output,
                             "ä b: 3 blocks of 512 unpacked into 1,178 bytes\n")
            self.assertEqual(self.path("c.ads").read_bytes(), FILE)
            self.path("c.ads").unlink()
        self.assertEqual(self.names(), ["a.ads", "a.blocks", "ä b"])

    def test_every_sample(self) -> None:
        for name, data in SAMPLES.items():
            self.path("given", data)
            length = self.expect(0, "pack", "given", "packed").output.split()[-1]
            self.assertEqual(self.path("packed").read_bytes(), packed(data), name)
            self.expect(0, "unpack", "packed", "again", "--length", length)
            self.assertEqual(self.path("again").read_bytes(), data, name)
            for made in ("packed", "again"):
                self.path(made).unlink()

    def test_short_files(self) -> None:
        for data, said in ((b"", "0 bytes"), (b"x", "1 byte"), (b"x" * 504, "504 bytes")):
            self.path("given", data)
            self.assertEqual(self.expect(0, "pack", "given", "packed").output, f"given: {said} packed into 1 block of "
                             f"512; carry the length beside the copy: {len(data)}\n")
            self.assertEqual(self.expect(0, "unpack", "packed", "again", f"--length={len(data)}").output,
                             f"packed: 1 block of 512 unpacked into {said}\n")
            self.assertEqual(self.path("again").read_bytes(), data)
            for made in ("packed", "again"):
                self.path(made).unlink()

    def test_another_length(self) -> None:
        """Refused before anything is written, whichever is longer."""
        for length in (0, 1177, 1179, 2**64 - 1):
            said = "a.blocks: " + LENGTHS.format(1178, length)
            self.refused(1, said, "unpack", "a.blocks", "out", f"--length={length}")

    def test_lost_blocks(self) -> None:
        """What only the length tells, and what the blocks do."""
        for name, data, length in (("a", BLOCKS[:1024], 1008), ("b", BLOCKS[:512], 504), ("c", bytes(512), 0)):
            self.path(name, data)
            self.refused(1, f"{name}: " + LENGTHS.format(length, 1178), "unpack", name, "out", "--length=1178")
            self.assertEqual(self.expect(0, "unpack", name, "out").errors, "")
            self.assertEqual(self.path("out").read_bytes(), FILE[:length])
            self.path("out").unlink()
        self.path("d", SAMPLES["damaged-28-lost-block.blocks"])
        for more in ((), ("--length=1178",)):
            self.refused(1, f"d: refused with 28 (the number of a block is wrong): {HINT}", "unpack", "d", "out", *more)

    def test_refused(self) -> None:
        for number, data in wrong():
            self.path("b", data)
            self.refused(1, f"b: refused with {number} ({ads_metafile.WORDS[number]}): {HINT}", "unpack", "b", "out")
        self.refused(1, f"a.ads: refused with 27 ({ads_metafile.WORDS[27]}): {HINT}", "unpack", "a.ads", "out")

    def test_too_long(self) -> None:
        os.truncate(self.path("long", b""), 2**30 + 1)
        for subcommand in ("pack", "unpack"):
            ended = self.expect(1, subcommand, "long", "out")
            self.assertEqual(ended.errors, f"ads: long: refused with 11 ({ads_metafile.WORDS[11]}): the file has "
                             "1,073,741,825 bytes, and at most 1,073,741,824 are read\n")
        errors = io.TextIOWrapper(io.BytesIO())
        with mock.patch.object(_blocks, "MOST_BYTES", 1535), redirect_stderr(errors):
            status = main(["pack", str(self.path("a.ads")), str(self.path("out"))])
        errors.seek(0)
        self.assertEqual((status, errors.read()), (1, f"ads: {self.path('a.ads')}: refused with 18 ("
                         f"{ads_metafile.WORDS[18]}): the packed file would have more than 1,535 bytes\n"))
        self.assertEqual(self.names(), ["a.ads", "a.blocks", "long"])

    def test_no_file_is_overwritten(self) -> None:
        os.link(self.path("a.ads"), self.path("hard"))
        self.path("b", b"old")
        self.path("none", b"")
        self.path("to nowhere").symlink_to("nowhere")
        os.mkdir(self.path("folder"))
        for subcommand, file in (("pack", "a.ads"), ("unpack", "a.blocks")):
            for out in (file, "hard", "b", "none", "to nowhere", "folder"):
                self.refused(3, f"{out}: exists already, and is never overwritten; give another name",
                             subcommand, file, out)

    def test_no_links(self) -> None:
        """As on FAT: the file is renamed, and never over another one; begin is refused."""
        begin = ["begin", "d.ads", *header_options()]
        for arguments, errors in ((["pack", "a.ads", "b"], ""), (["unpack", "b", "c.ads"], ""),
                                  (["pack", "a.ads", "c.ads"], "c.ads: exists already, and is never overwritten; give "
                                   "another name"), (begin, "d.ads: operation not permitted; nothing was begun")):
            ran = subprocess.run([sys.executable, "-c", NO_LINKS, str(REPOSITORY / "python"), *arguments],
                                 cwd=self.folder, env=environment(), capture_output=True, text=True, timeout=60)
            self.assertEqual((ran.returncode, ran.stderr), (3, f"ads: {errors}\n") if errors else (0, ""))
        self.assertEqual(self.names(), ["a.ads", "a.blocks", "b", "c.ads"])
        self.assertEqual((self.path("b").read_bytes(), self.path("c.ads").read_bytes()), (BLOCKS, FILE))

    def test_no_folder(self) -> None:
        for subcommand, file in (("pack", "a.ads"), ("unpack", "a.blocks")):
            self.refused(3, "x/y: no such folder; nothing was written", subcommand, file, "x/y")

    def test_a_folder_without_permission(self) -> None:
        self.folder.chmod(0o555)
        self.refused(3, "out: permission denied; nothing was written", "pack", "a.ads", "out", unprivileged=True)

    def test_a_full_disk_leaves_no_part(self) -> None:
        def limit() -> None:
            resource.setrlimit(resource.RLIMIT_FSIZE, (1000, 1000))
        for subcommand, file in (("pack", "a.ads"), ("unpack", "a.blocks")):
            # once before, so that no compiled module is cut short
            self.expect(0, subcommand, file, f"before {subcommand}")
            self.refused(3, "out: file too large; nothing was written", subcommand, file, "out", preexec_fn=limit)

    def test_what_is_no_file(self) -> None:
        os.mkfifo(self.path("pipe"))
        for subcommand in ("pack", "unpack"):
            for name, said in (("lost", "no such file"), (".", "is a directory"), ("pipe", "isn't a regular file")):
                self.refused(3, f"{name}: {said}", subcommand, name, "out")

    def test_usage(self) -> None:
        for length in ("-1", "x", "7,214", "1.5", "", " 1", "\u0663", str(2**64), "9" * 40):
            errors = self.expect(2, "unpack", "a.blocks", "out", "--length", length).errors
            self.assertIn("isn't a whole number of bytes from 0 to 18446744073709551615; see `ads unpack", errors)
        for given, said in ((("pack", "a.ads"), "pack: the following arguments are required: OUT"),
                            (("unpack", "a.blocks"), "unpack: the following arguments are required: OUT"),
                            (("pack", "a.ads", "out", "--length=1"), "unrecognized arguments: --length=1")):
            self.assertIn(said, self.expect(2, *given).errors)
        self.assertEqual(self.names(), ["a.ads", "a.blocks"])

    def done(self, *arguments: str, **more: object) -> Ended:
        """Runs the command; what it was to write stands whole."""
        ended = self.run_ads(*arguments, "out", **more)
        self.assertEqual(self.path("out").read_bytes(), BLOCKS if arguments[0] == "pack" else FILE)
        self.path("out").unlink()
        return ended

    def test_streams(self) -> None:
        """Where standard output is closed or full, it is done all the same."""
        for arguments, said in ((("pack", "a.ads"), "a.ads: 1,178 bytes packed into 3 blocks of 512; carry the length "
                                 "beside the copy: 1178"),
                                (("unpack", "a.blocks"), "a.blocks: 3 blocks of 512 unpacked into 1,178 bytes")):
            ended = self.done(*arguments, stdout=None, preexec_fn=lambda: os.close(1))
            self.assertEqual((ended.status, ended.errors), (0, ""))
            with open("/dev/full", "wb") as full:
                ended = self.done(*arguments, stdout=full)
            self.assertEqual((ended.status, ended.errors),
                             (3, f"ads: standard output: no space left on device; but it is done: {said}\n"))


if __name__ == "__main__":
    unittest.main()
