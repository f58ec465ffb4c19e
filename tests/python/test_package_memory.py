"""The package's memory: views without copies, closing, files of every kind and length, and what a table costs."""
from __future__ import annotations

import array
import gc
import mmap
import os
import signal
import subprocess
import sys
import tempfile
import unittest
from pathlib import Path
from unittest import mock

import support
from support import SAMPLE

import ads_metafile
from ads_metafile import Refused

try:
    import numpy
except ImportError:
    numpy = None  # type: ignore[assignment]

# cycles of a file with its views, iterators and a refusal's traceback, whose parts are older than the cycle
CYCLES = """
import gc, sys
import ads_metafile

def cycle(file):
    parts = [file.data, file[0].contents, file.records(), iter(file), file[0], file]
    next(parts[2])
    try:
        file.contents(9)
    except ads_metafile.Refused as error:
        parts.append(error)
    parts.append(parts)

data = bytearray(open(sys.argv[1], "rb").read())
for _ in range(50):
    cycle(ads_metafile.open(sys.argv[1]))
    cycle(ads_metafile.open(sys.argv[1], mmap=True))
    cycle(ads_metafile.read(memoryview(data)))
    gc.collect()
data.clear()
print("done")
"""

SHRINKS = """
import os, sys
import ads_metafile
file = ads_metafile.open(sys.argv[1], mmap=len(sys.argv) > 2)
os.truncate(sys.argv[1], 0)
print(file.listing()[:11])
"""


class Views(unittest.TestCase):
    def test_contents_are_not_copied(self) -> None:
        data = bytearray(SAMPLE.read_bytes())
        file = ads_metafile.read(data)
        view = file[0].contents
        data[file[0].contents_place] = ord("x")
        self.assertEqual(view.tobytes(), b"xbc")
        self.assertEqual(file.contents(0).tobytes(), b"xbc")
        self.assertEqual(file.data.tobytes(), bytes(data))
        for each in (view, file.data, file.contents(0)):
            self.assertTrue(each.readonly)
            with self.assertRaises(TypeError):
                each[0] = 1

    def test_closing_with_a_view_alive(self) -> None:
        for mapped in (False, True):
            for make in (lambda file: file[0].contents, lambda file: file.contents(0), lambda file: file.data[5:9]):
                with self.subTest(mapped=mapped):
                    file = ads_metafile.open(SAMPLE, mmap=mapped)
                    view = make(file)
                    part = view[1:]
                    view.release()
                    with self.assertRaisesRegex(BufferError, "release or delete the views.*stays open"):
                        file.close()
                    self.assertFalse(file.closed)
                    self.assertEqual((file[0].bytes, file.listing()[:11], len(part)), (3, "header good", part.nbytes))
                    part.release()
                    file.close()
                    self.assertTrue(file.closed)

    def test_closed(self) -> None:
        with ads_metafile.open(SAMPLE) as file:
            row = file[0]
        uses = (lambda: file.data, lambda: file.strategy, lambda: file.records(), lambda: file.parent(0, 0),
                lambda: file.ancestors(0), lambda: file.contents(0), lambda: file.gather(0, ""),
                lambda: file.relations_write(),
                lambda: file.relations_check(0), lambda: file.relations_check_latest(),
                lambda: file.price(1, 1), lambda: file.listing(), lambda: row.serial,
                lambda: row.contents, lambda: file.by_serial(""), lambda: file.parents(0))
        for use in uses:
            with self.assertRaisesRegex(ValueError, "the file is closed"):
                use()
        file.close()
        self.assertEqual((repr(row), len(file), file.clean), ("<Row 0 of a closed file>", 1, True))
        self.assertIn("closed", repr(file))

    def test_another_exception_is_not_hidden(self) -> None:
        with self.assertRaisesRegex(RuntimeError, "mine"), ads_metafile.open(SAMPLE) as file:
            view = file[0].contents
            raise RuntimeError("mine")
        self.assertEqual(bytes(view), b"abc")

    def test_a_kept_refusal_holds_no_bytes(self) -> None:
        """Neither a refused call nor a wrong argument leaves a buffer lent, though its traceback is kept."""
        kept = []
        data = bytearray(SAMPLE.read_bytes())
        with ads_metafile.open(SAMPLE) as opened, ads_metafile.read(data) as file:
            for call in (lambda: opened.contents(9), lambda: file.gather(9, "x"), lambda: opened.parent(0, 0),
                         lambda: opened.ancestors(9), lambda: file.ancestors(9), lambda: file.ancestors(-1),
                         lambda: opened.relations_check(0), lambda: file.relations_check(0),
                         lambda: opened.relations_check_latest(), lambda: file.relations_check_latest(),
                         lambda: opened.price(10**18, 0), lambda: file.price(10**18, 0), lambda: file.price(-1, 0),
                         lambda: ads_metafile.append_into(data, 1178, support.description(), data)):
                try:
                    call()
                except (Refused, ValueError) as error:
                    kept.append(error)
        data.clear()
        self.assertEqual(len(kept), 14)

    def test_a_kept_refusal_of_blocks_holds_no_bytes(self) -> None:
        data = bytearray(SAMPLE.read_bytes())
        with self.assertRaises(Refused) as kept:
            ads_metafile.unpack(data)
        data.clear()
        self.assertEqual(kept.exception.number, ads_metafile.BLOCK_SUM)

    def test_bytes_of_read_stay_the_callers(self) -> None:
        data = bytearray(SAMPLE.read_bytes())
        file = ads_metafile.read(data)
        with self.assertRaises(BufferError):
            data.clear()
        view = file[0].contents
        file.close()
        self.assertEqual(bytes(view), b"abc")
        view.release()
        data.clear()

    def test_a_mapping_of_the_caller_is_not_closed(self) -> None:
        with open(SAMPLE, "rb") as stream, mmap.mmap(stream.fileno(), 0, access=mmap.ACCESS_READ) as mapped:
            with ads_metafile.read(mapped) as file:
                self.assertTrue(file.clean)
            self.assertEqual(mapped[:9], b"Format_ID")

    def test_cycles_are_collected(self) -> None:
        ran = subprocess.run([sys.executable, "-S", "-c", CYCLES, str(SAMPLE)], env=support.environment(),
                             capture_output=True, text=True)
        self.assertEqual((ran.returncode, ran.stdout, ran.stderr), (0, "done\n", ""))

    def test_not_bytes(self) -> None:
        for wrong in ("text", None, 3, [1], object()):
            with self.assertRaises(TypeError):
                ads_metafile.read(wrong)  # type: ignore[arg-type]
        with self.assertRaisesRegex(BufferError, "copy them by bytes"):
            ads_metafile.read(memoryview(SAMPLE.read_bytes())[::2])
        for empty in (b"", bytearray(), memoryview(b"abc")[1:1], array.array("I")):
            with ads_metafile.read(empty) as file:  # type: ignore[arg-type]
                self.assertEqual((file.number, file.stop, len(file), file.clean, file.header_good),
                                 (0, 0, 0, False, False))
                self.assertEqual(file.listing(), "header none\nchunks 0\nend 0 0\n")
                self.assertEqual((file.words, file.strategy, file.mark), (None, None, None))
                self.assertEqual(repr(file), "<ads_metafile.File None: 0 rows, not clean, no bytes>")


class OnDisk(unittest.TestCase):
    def setUp(self) -> None:
        made = tempfile.TemporaryDirectory()
        self.addCleanup(made.cleanup)
        self.path = Path(made.name) / "file.ads"

    def test_missing_and_not_regular(self) -> None:
        with self.assertRaises(FileNotFoundError):
            ads_metafile.open(self.path)
        with self.assertRaisesRegex(IsADirectoryError, self.path.parent.name):
            ads_metafile.open(self.path.parent)
        os.mkfifo(self.path)
        with self.assertRaisesRegex(ValueError, "file.ads is not a regular file"):
            ads_metafile.open(self.path)
        with self.assertRaises(TypeError):
            ads_metafile.open(3)  # type: ignore[arg-type]

    def test_empty(self) -> None:
        self.path.touch()
        for mapped in (False, True):
            with ads_metafile.open(self.path, mmap=mapped) as file:
                self.assertEqual((file.number, file.clean, file.length, bytes(file.data)), (0, False, 0, b""))

    def test_no_descriptor_stays_open(self) -> None:
        before = os.listdir("/proc/self/fd")
        file = ads_metafile.open(SAMPLE)
        with self.assertRaises(IsADirectoryError):
            ads_metafile.open(self.path.parent)
        self.assertEqual(os.listdir("/proc/self/fd"), before)
        file.close()

    def test_one_read(self) -> None:
        with mock.patch("os.preadv", wraps=os.preadv) as read, mock.patch("os.fstat", wraps=os.fstat) as asked:
            ads_metafile.open(SAMPLE).close()
        self.assertEqual((read.call_count, asked.call_count), (1, 1))

    def test_short_reads(self) -> None:
        def few(descriptor: int, buffers: list[memoryview], place: int) -> int:
            return os.pread(descriptor, 100, place) and true_read(descriptor, [buffers[0][:100]], place)

        true_read = os.preadv
        with mock.patch("os.preadv", few), ads_metafile.open(SAMPLE) as file:
            self.assertEqual((file.clean, file.length), (True, 1178))

    def test_changed_while_it_is_read(self) -> None:
        """What was read counts: of a file that grows its old length, of one that shrinks what is left."""
        true_stat = os.fstat
        for new, length, number in ((SAMPLE.read_bytes() + b"more", 1178, 0), (SAMPLE.read_bytes()[:400], 400, 4)):
            self.path.write_bytes(SAMPLE.read_bytes())

            def changed(descriptor: int) -> os.stat_result:
                status = true_stat(descriptor)
                self.path.write_bytes(new)
                return status

            with mock.patch("os.fstat", changed), ads_metafile.open(self.path) as file:
                self.assertEqual((file.length, file.data.nbytes, file.number), (length, length, number))

    def test_a_file_that_shrinks(self) -> None:
        """Read into memory it stays as it was; mapped it ends the process, as the docstring says."""
        for mapped, status in (([], 0), (["mapped"], -signal.SIGBUS)):
            self.path.write_bytes(SAMPLE.read_bytes())
            ran = subprocess.run([sys.executable, "-S", "-c", SHRINKS, str(self.path), *mapped],
                                 env=support.environment(), capture_output=True, text=True)
            self.assertEqual((ran.returncode, ran.stdout), (status, "" if mapped else "header good\n"))
        self.assertIn("a mapped file that shrinks ends the process", " ".join(ads_metafile.open.__doc__.split()))

    def test_over_the_limit(self) -> None:
        """A file over 2^30 bytes isn't read. Mapped, the library answers 11."""
        self.path.touch()
        os.truncate(self.path, 2**30 + 1)
        with mock.patch("os.preadv", side_effect=AssertionError), self.assertRaises(Refused) as caught:
            ads_metafile.open(self.path)
        self.assertEqual((caught.exception.number, caught.exception.name), (11, "LIMIT"))
        self.assertIn("the file has 1,073,741,825 bytes", str(caught.exception))
        with ads_metafile.open(self.path, mmap=True) as file:
            self.assertEqual((file.number, file.stop, len(file), file.header_good, file.clean, file.strategy),
                             (11, 0, 0, False, False, None))
            with self.assertRaises(Refused):
                file.contents(0)

    def test_the_table_costs_nothing_until_written(self) -> None:
        """2^30 bytes, most of them a hole, ask for a table of 130 MB, of which nothing is in memory."""
        self.path.write_bytes(support.begun())
        os.truncate(self.path, 2**30)
        before = resident()
        with ads_metafile.open(self.path, mmap=True) as file:
            self.assertEqual((file.stop, len(file), len(file._table())), (319, 0, 104 * 1_254_372))
            self.assertLess(resident() - before, 16 * 2**20)


class Many(unittest.TestCase):
    @classmethod
    def setUpClass(cls) -> None:
        cls.data = support.many(10_000)

    def test_rows_are_no_objects(self) -> None:
        ads_metafile.read(self.data).close()
        gc.collect()
        before = sys.getallocatedblocks()
        file = ads_metafile.read(self.data)
        self.assertLess(sys.getallocatedblocks() - before, 200)
        self.assertEqual((len(file), sum(row.good for row in file), sum(record[4] for record in file.records())),
                         (10_000, 10_000, 30_000))
        self.assertLess(sys.getallocatedblocks() - before, 200)
        self.assertEqual(file.by_serial(support.serial(9_999)).index, 9_999)

    @unittest.skipIf(numpy is None, "numpy isn't installed")
    def test_to_numpy(self) -> None:
        file = ads_metafile.read(self.data)
        rows = file.to_numpy()
        self.assertEqual((rows.shape, rows.dtype.itemsize, rows.flags.writeable), ((10_000,), 104, False))
        self.assertEqual([tuple(row) for row in rows[:50].tolist()], [row.record for row in file[:50]])
        self.assertEqual(rows.ctypes.data, numpy.frombuffer(file._table(), numpy.uint8).ctypes.data)
        file.close()
        gc.collect()
        self.assertEqual((int(rows["bytes"].sum()), rows["serial"][-1]), (30_000, support.serial(9_999).encode()))
        self.assertEqual(ads_metafile.read(b"").to_numpy().shape, (0,))

    @unittest.skipIf(numpy is not None, "numpy is installed")
    def test_without_numpy(self) -> None:
        with ads_metafile.open(SAMPLE) as file, self.assertRaisesRegex(ImportError, "to_numpy needs numpy"):
            file.to_numpy()


def resident() -> int:
    """Bytes of this process in memory."""
    return int(Path("/proc/self/statm").read_text().split()[1]) * mmap.PAGESIZE


if __name__ == "__main__":
    unittest.main()
