"""The disk part of the package, called as a library: append, begin, reading, locks, descriptors, signals.

What the command does with it is tried as a process in the tests of the command and in tests/faults.
"""
import errno
import fcntl
import os
import signal
import subprocess
import sys
import tempfile
import threading
import unittest
from pathlib import Path
from unittest import mock

from support import begun, description, made

import ads_metafile
from ads_metafile import disk
from ads_metafile.disk import descriptors, locking


class DiskTest(unittest.TestCase):
    def setUp(self) -> None:
        folder = tempfile.TemporaryDirectory()
        self.addCleanup(folder.cleanup)
        self.folder = Path(folder.name)
        self.path = str(self.folder / "a.ads")
        self.data = made(b"abc", b"xyz")
        Path(self.path).write_bytes(self.data)

    def now(self) -> bytes:
        return Path(self.path).read_bytes()


class Append(DiskTest):
    def test_as_the_library_makes_it(self) -> None:
        done = disk.append(self.path, description(7), b"12345", parents=[1], specific=b"s")
        expected = ads_metafile.append(self.data, description(7), b"12345", parents=[1], specific=b"s")
        self.assertEqual(self.now(), bytes(expected.data))
        self.assertEqual((done.row, done.old, done.ends), (2, expected.old, expected.ends))
        self.assertEqual(bytes(done.finished), self.now())

    def test_each_part_is_on_disk_before_the_next(self) -> None:
        calls: list[tuple[str, int, int]] = []

        def pwrite(descriptor: int, part: memoryview, place: int) -> int:
            calls.append(("pwrite", place, len(part)))
            return written(descriptor, part, place)

        def fdatasync(descriptor: int) -> None:
            calls.append(("fdatasync", 0, 0))

        written = os.pwrite
        with mock.patch("os.pwrite", pwrite), mock.patch("os.fdatasync", fdatasync):
            disk.append(self.path, description(7), b"12345")
        old, sync = len(self.data), ("fdatasync", 0, 0)
        self.assertEqual(calls, [("pwrite", old, 602), sync, ("pwrite", old + 602, 5), sync,
                                 ("pwrite", old + 607, 254), sync])

    def test_refused(self) -> None:
        with self.assertRaises(ads_metafile.Refused):
            disk.append(self.path, description(43), b"12345")
        self.assertEqual(self.now(), self.data)

    def test_where_nothing_gets_written(self) -> None:
        with mock.patch("os.pwrite", lambda *given: 0), self.assertRaisesRegex(disk.DiskError, "back to its old end"):
            disk.append(self.path, description(7), b"12345")
        self.assertEqual(self.now(), self.data)

    def test_where_anything_else_fails(self) -> None:
        with mock.patch("os.fdatasync", side_effect=MemoryError), self.assertRaisesRegex(
                disk.DiskError, r"writing failed \(MemoryError\(\)\); nothing was appended, the file is cut back"):
            disk.append(self.path, description(7), b"12345")
        self.assertEqual(self.now(), self.data)

    def test_signals_take_effect_behind_it(self) -> None:
        lengths: list[int] = []
        old = signal.signal(signal.SIGTERM, lambda *given: lengths.append(len(self.now())))
        self.addCleanup(signal.signal, signal.SIGTERM, old)

        def fdatasync(descriptor: int) -> None:
            os.kill(os.getpid(), signal.SIGTERM)

        with mock.patch("os.fdatasync", fdatasync):
            done = disk.append(self.path, description(7), b"12345")
        self.assertEqual(lengths, [done.ends[2]])
        self.assertEqual(signal.pthread_sigmask(signal.SIG_BLOCK, ()) & disk.HELD, set())

    def test_threads(self) -> None:
        threads = [threading.Thread(target=disk.append, args=(self.path, description(100 + each), b"x"))
                   for each in range(8)]
        for thread in threads:
            thread.start()
        for thread in threads:
            thread.join()
        with ads_metafile.open(self.path) as file:
            self.assertEqual((file.clean, len(file)), (True, 10))


class Create(DiskTest):
    def test_create(self) -> None:
        path = str(self.folder / "new.ads")
        disk.create(path, begun())
        self.assertEqual(Path(path).read_bytes(), begun())
        with self.assertRaisesRegex(disk.DiskError, "new.ads: exists already, and is never overwritten"):
            disk.create(path, b"other")
        self.assertEqual(sorted(os.listdir(self.folder)), ["a.ads", "new.ads"])

    def test_a_name_that_is_taken_meanwhile(self) -> None:
        path = str(self.folder / "new.ads")

        def fsync(descriptor: int) -> None:
            Path(path).write_bytes(b"by another")

        with mock.patch("os.fsync", fsync), self.assertRaisesRegex(disk.DiskError, "exists already"):
            disk.create(path, begun())
        self.assertEqual(Path(path).read_bytes(), b"by another")
        self.assertEqual(sorted(os.listdir(self.folder)), ["a.ads", "new.ads"])

    def test_no_links(self) -> None:
        with mock.patch("os.link", side_effect=OSError(errno.EPERM, "")), self.assertRaisesRegex(
                disk.DiskError, "operation not permitted; nothing was begun"):
            disk.create(str(self.folder / "new.ads"), begun())
        self.assertEqual(os.listdir(self.folder), ["a.ads"])

    def test_no_links_but_a_rename(self) -> None:
        """As pack and unpack on FAT: the file is renamed, and never over another one."""
        path = str(self.folder / "new.ads")

        def link(temporary: str, name: str) -> None:
            Path(name).write_bytes(b"by another")
            raise OSError(errno.EPERM, "")

        with mock.patch("os.link", side_effect=OSError(errno.EPERM, "")):
            disk.create(path, begun(), rename=True)
        self.assertEqual(Path(path).read_bytes(), begun())
        self.assertEqual(sorted(os.listdir(self.folder)), ["a.ads", "new.ads"])
        os.unlink(path)
        with mock.patch("os.link", link), self.assertRaisesRegex(disk.DiskError, "exists already, and is never overwritten"):
            disk.create(path, begun(), rename=True)
        self.assertEqual(Path(path).read_bytes(), b"by another")
        self.assertEqual(sorted(os.listdir(self.folder)), ["a.ads", "new.ads"])

    def test_no_links_and_no_such_rename(self) -> None:
        for done, said in (((), "nothing was begun"), (("written",), "nothing was written")):
            for failed in ({"return_value": mock.Mock(spec=())},
                           {"return_value": mock.Mock(renameat2=mock.Mock(return_value=-1))}):
                with (mock.patch("os.link", side_effect=OSError(errno.EPERM, "")), mock.patch("ctypes.CDLL", **failed),
                      mock.patch("ctypes.get_errno", return_value=errno.EINVAL),
                      self.assertRaisesRegex(disk.DiskError, f"operation not permitted; {said}")):
                    disk.create(str(self.folder / "new.ads"), begun(), *done, rename=True)
        self.assertEqual(os.listdir(self.folder), ["a.ads"])


class CutBack(DiskTest):
    def test_a_file_that_grew_meanwhile_is_not_cut(self) -> None:
        Path(self.path).write_bytes(self.data + b"rest")
        with disk.locked(self.path, 0) as file:
            behind = disk.look(file)
            self.assertEqual((bytes(behind.data), behind.labels, len(behind.file)), (b"rest", 0, 2))
            with open(self.path, "ab") as other:
                other.write(b"x")
            with self.assertRaisesRegex(disk.DiskError, "has 2,386 bytes where 2,385 were left: somebody else writes"):
                disk.cut(file, behind)
        self.assertEqual(self.now(), self.data + b"restx")


class Locks(DiskTest):
    def test_no_locks_nothing_written(self) -> None:
        with mock.patch("fcntl.flock", side_effect=OSError(errno.ENOLCK, "")), self.assertRaisesRegex(
                disk.DiskError, r"its file system can't lock \(no locks available\); nothing was written"):
            disk.append(self.path, description(7), b"")
        self.assertEqual(self.now(), self.data)
        with mock.patch("fcntl.flock", side_effect=OSError(errno.EOPNOTSUPP, "")):
            self.assertEqual(disk.read_file(self.path), (self.data, False))

    def test_readers(self) -> None:
        with disk.locked(self.path, 0) as file:
            self.assertEqual((file.length, bytes(file.read())), (len(self.data), self.data))
            self.assertEqual(disk.read_file(self.path), (self.data, True))
        self.assertEqual(disk.read_file(self.path), (self.data, False))

    def test_the_lock_is_let_go_of(self) -> None:
        for _ in range(2):
            with disk.locked(self.path, 0):
                with self.assertRaisesRegex(disk.DiskError, "another program holds"), disk.locked(self.path, 0.01):
                    pass
        with self.assertRaises(ZeroDivisionError), disk.locked(self.path, 0):
            raise ZeroDivisionError
        with disk.locked(self.path, 0):
            pass

    def test_replaced_between_open_and_lock(self) -> None:
        taken = locking.take_lock

        def take_lock(path: str, descriptor: int, deadline: float) -> None:
            taken(path, descriptor, deadline)
            if not replaced:
                replaced.append(os.fstat(descriptor).st_ino)
                os.replace(other, path)

        replaced: list[int] = []
        other = self.folder / "other"
        other.write_bytes(begun())
        with mock.patch("ads_metafile.disk.locking.take_lock", take_lock), disk.locked(self.path, 0) as file:
            self.assertEqual(file.length, len(begun()))

    def test_shorter_than_it_was(self) -> None:
        with disk.locked(self.path, 0) as file:
            os.truncate(self.path, 100)
            with self.assertRaisesRegex(disk.DiskError, "became shorter while it was read; nothing was written"):
                file.read()


class Descriptors(DiskTest):
    def test_a_new_file_goes_where_the_block_fails(self) -> None:
        path = str(self.folder / "new")
        with self.assertRaises(KeyboardInterrupt), disk.new_file(path) as descriptor:
            os.write(descriptor, b"part")
            raise KeyboardInterrupt
        self.assertFalse(os.path.exists(path))
        with self.assertRaises(FileExistsError), disk.new_file(self.path):
            pass
        self.assertEqual(self.now(), self.data)

    def test_memory(self) -> None:
        self.assertEqual(bytes(descriptors.memory(0)), b"")
        self.assertEqual(bytes(descriptors.memory(5)), bytes(5))

    def test_never_the_number_of_a_stream(self) -> None:
        """With all streams closed a file would get the number 0, 1 or 2, and what is printed would be written to it."""
        code = ("import os, sys; sys.path.insert(0, sys.argv[1]); import ads_metafile.disk as d\n"
                "with d.locked(sys.argv[2], 0) as file, d.new_file(sys.argv[2] + '.new') as new:\n"
                "    os._exit(int(min(file.descriptor, new) > 2))\n")
        for closed in ((0,), (0, 1), (0, 1, 2), (2,)):
            with self.subTest(closed):
                command = [sys.executable, "-B", "-c", code, str(Path(disk.__file__).parents[2]), self.path]
                process = subprocess.Popen(command, preexec_fn=lambda: [os.close(each) for each in closed])
                self.assertEqual(process.wait(30), 1)
                os.unlink(self.path + ".new")

    def test_only_regular_files(self) -> None:
        os.mkfifo(self.folder / "pipe")
        for name, words in (("pipe", "isn't a regular file"), (".", "is a directory"), ("x", "no such file")):
            for opened in (disk.read_file, lambda path: disk.locked(path, 0).__enter__()):
                with self.assertRaisesRegex(disk.DiskError, words):
                    opened(str(self.folder / name))

    def test_an_error_while_reading(self) -> None:
        with mock.patch("os.preadv", side_effect=OSError(errno.EIO, "")):
            with self.assertRaisesRegex(disk.DiskError, "input/output error"):
                disk.read_file(self.path)
            with self.assertRaisesRegex(disk.DiskError, r"reading failed \(input/output error\); nothing was written"):
                disk.append(self.path, description(7))
        with open(self.path) as file:
            fcntl.flock(file, fcntl.LOCK_EX | fcntl.LOCK_NB)


if __name__ == "__main__":
    unittest.main()
