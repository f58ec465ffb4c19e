"""The lock of `ads append`: waiting for it, a file that is replaced, removed or grown meanwhile, several at once."""
import fcntl
import os
import signal
import subprocess
import unittest
from collections.abc import Callable
from pathlib import Path

from running import SERIAL, SIGNALS, chunk_options, chunks, has_open, heard, rows, wait_until
from metafile_bytes import head, plain, serial
from test_command_append import FILE, AppendTest

import ads_metafile


def hang_up_ignored() -> None:
    """As nohup does it."""
    heard()
    signal.signal(signal.SIGHUP, signal.SIG_IGN)


class Lock(AppendTest):
    def hold(self, path: Path) -> int:
        """Takes the file's lock as another program would."""
        descriptor = os.open(path, os.O_RDWR)
        fcntl.flock(descriptor, fcntl.LOCK_EX)
        return descriptor

    def waiting(self, prepare: Callable[[], None] = heard) -> subprocess.Popen[bytes]:
        """An append that has opened the file and waits for its lock."""
        process = self.start("append", "a.ads", *chunk_options(), "--contents=data", "--wait=30", preexec_fn=prepare)
        wait_until(lambda: has_open(process, self.file), process)
        return process

    def ended(self, process: subprocess.Popen[bytes]) -> tuple[int, str, str]:
        output, errors = process.communicate(timeout=30)
        return process.returncode, output.decode(), errors.decode()

    def test_held_for_too_long(self) -> None:
        descriptor = self.hold(self.file)
        for wait in ("0", "0.2"):
            errors = self.append(3, "--contents=data", f"--wait={wait}").errors
            self.assertEqual(errors, "ads: a.ads: another program holds the lock; nothing was written. Try again, or "
                             "wait longer with --wait S\n")
        os.close(descriptor)
        for wait in ("-1", "x", "nan"):
            self.assertIn("isn't a number of seconds", self.append(2, "--contents=data", f"--wait={wait}").errors)

    def test_let_go_while_it_waits(self) -> None:
        descriptor = self.hold(self.file)
        process = self.waiting()
        os.close(descriptor)
        self.assertEqual(self.ended(process), (0, f"row 2 appended: 2,037 to 2,898, serial {SERIAL}\n", ""))

    def test_replaced_while_it_waits(self) -> None:
        descriptor = self.hold(self.file)
        process = self.waiting()
        os.rename(self.path("other", chunks(b"the new one")), self.file)
        os.close(descriptor)
        self.assertEqual(self.ended(process)[:2], (0, f"row 1 appended: 1,186 to 2,047, serial {SERIAL}\n"))
        self.assertEqual(len(rows(self.file.read_bytes())), 2)

    def test_removed_while_it_waits(self) -> None:
        descriptor = self.hold(self.file)
        process = self.waiting()
        self.file.unlink()
        os.close(descriptor)
        said = "ads: a.ads: no such file any more: it went while its lock was waited for\n"
        self.assertEqual(self.ended(process), (3, "", said))

    def test_grown_while_it_waits(self) -> None:
        descriptor = self.hold(self.file)
        process = self.waiting()
        os.pwrite(descriptor, plain(b"", serial("00044"), b"by another"), len(FILE))
        os.close(descriptor)
        self.assertEqual(self.ended(process)[:2], (0, f"row 3 appended: 2,903 to 3,764, serial {SERIAL}\n"))

    def test_signals_end_the_waiting(self) -> None:
        descriptor = self.hold(self.file)
        for number in SIGNALS:
            process = self.waiting()
            process.send_signal(number)
            said = f"ads: ended by {number.name}; no metafile was changed\n"
            self.assertEqual(self.ended(process), (-number, "", said))
        os.close(descriptor)
        self.assertEqual(self.file.read_bytes(), FILE)

    def test_a_signal_that_is_ignored_stays_so(self) -> None:
        descriptor = self.hold(self.file)
        process = self.waiting(hang_up_ignored)
        process.send_signal(signal.SIGHUP)
        os.close(descriptor)
        self.assertEqual(self.ended(process)[0], 0)

    def test_several_at_once(self) -> None:
        """Each of them waits for the others: all rows stand."""
        numbers = [serial("%05d" % random) for random in range(800, 806)]
        started = [self.start("append", "a.ads", *chunk_options(number), "--contents=data", "--wait=30")
                   for number in numbers]
        self.assertEqual([self.ended(process)[0] for process in started], [0] * len(numbers))
        with ads_metafile.open(self.file) as file:
            self.assertTrue(file.clean)
            self.assertEqual(sorted(row.serial for row in file[2:]), numbers)

    def test_of_two_with_one_serial_number_one_is_refused(self) -> None:
        started = [self.start("append", "a.ads", *chunk_options(), "--contents=data") for _ in range(2)]
        ended = sorted(self.ended(process) for process in started)
        self.assertEqual([status for status, _, _ in ended], [0, 1])
        self.assertIn(f"refused with 9 (the serial number is already in a row): row 2 has {SERIAL};", ended[1][2])
        self.assertEqual(self.file.read_bytes(), FILE + plain(b"", SERIAL, b"12345", head()))


if __name__ == "__main__":
    unittest.main()
