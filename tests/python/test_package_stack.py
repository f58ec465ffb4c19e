"""The package in threads: small stacks, calls at the same time, signals during a call."""
from __future__ import annotations

import signal
import subprocess
import sys
import tempfile
import threading
import time
import unittest
from typing import Any, Callable
from unittest import mock

import support
from large_files import empty_chunks
from metafile_bytes import header, plain, serial
from support import SAMPLE

import ads_metafile
from ads_metafile import _library, _stack
from ads_metafile._memory import Lent

# processors of serial numbers that have one hash in the library (tests/compare/src/hashes.rs)
ONE_HASH = ("OOOOOOOOOOOO", "OOIPOOIOOOSL")

READ = """
import sys
import ads_metafile
from ads_metafile import _stack
with ads_metafile.open(sys.argv[1]) as file:
    print(file.clean, len(file), _stack.room() < _stack.NEEDED)
"""


def in_thread(work: Callable[[], Any], stack_size: int = 0) -> Any:
    """What the work answers in a thread with a stack of that size."""
    answers: list[Any] = []
    before = threading.stack_size(stack_size)
    try:
        thread = threading.Thread(target=lambda: answers.append(work()))
        thread.start()
    finally:
        threading.stack_size(before)
    thread.join()
    return answers[0]


class SmallStacks(unittest.TestCase):
    def test_threads(self) -> None:
        def work() -> tuple[Any, ...]:
            with ads_metafile.open(SAMPLE) as file:
                finished = ads_metafile.append(file.data, support.description(43), b"more", parents=[0]).data
                return _stack.room() < _stack.NEEDED, file.clean, file.listing()[:11], bytes(file[0].contents), \
                    ads_metafile.read(finished).parent(1, 0)

        answers = (True, "header good", b"abc", ads_metafile.Parent(0, True))
        for size, small in ((32 * 1024, True), (64 * 1024, True), (256 * 1024, True), (8 * 2**20, False)):
            with self.subTest(size):
                self.assertEqual(in_thread(work, size), (small, *answers))

    def test_reading_ahead(self) -> None:
        """Two serial numbers with one hash: from there on a reading looks ahead, which takes most stack. A thread with
        just enough of it makes the call itself."""
        data = header("LLC", b"") + b"".join(plain(b"", serial("00042", processor=of), b"") for of in ONE_HASH)
        data += empty_chunks(2000)[len(header("LLC", b"")):]

        def work() -> tuple[Any, ...]:
            with ads_metafile.read(data) as file:
                return _stack.room() < _stack.NEEDED, file.clean, len(file), bytes(file.contents(2001))

        for size, small in ((64 * 1024, True), (_stack.NEEDED + 64 * 1024, False)):
            with self.subTest(size):
                self.assertEqual(in_thread(work, size), (small, True, 2002, b""))

    def test_small_limit(self) -> None:
        """The main thread of a process under a limit of 512 KiB."""
        under_limit = 'ulimit -s 512; exec "$0" -S -c "$1" "$2"'
        ran = subprocess.run(["bash", "-c", under_limit, sys.executable, READ, str(SAMPLE)], env=support.environment(),
                             capture_output=True, text=True)
        self.assertEqual((ran.returncode, ran.stdout, ran.stderr), (0, "True 1 True\n", ""))

    def test_changed_limit(self) -> None:
        """A limit that was lowered while the process ran counts."""
        lower = "import resource\n" \
                "hard = resource.getrlimit(resource.RLIMIT_STACK)[1]\n" \
                "resource.setrlimit(resource.RLIMIT_STACK, (512 * 1024, hard))\n"
        ran = subprocess.run([sys.executable, "-S", "-c", READ.replace("with", "_stack.room()\n" + lower + "with"),
                              str(SAMPLE)], env=support.environment(), capture_output=True, text=True)
        self.assertEqual((ran.returncode, ran.stdout, ran.stderr), (0, "True 1 True\n", ""))

    def test_room_where_it_is_known(self) -> None:
        """The room falls by what is used: a thread of 8 MiB has nearly all of it."""
        self.assertTrue(7 * 2**20 < in_thread(_stack.room, 8 * 2**20) <= 8 * 2**20)
        self.assertTrue(0 < in_thread(_stack.room, 64 * 1024) < 64 * 1024)

    def test_room_that_is_not_known(self) -> None:
        caller = threading.get_ident()
        self.assertEqual(_stack.run(threading.get_ident), caller)
        with mock.patch.object(_stack, "_C", None):
            self.assertEqual(_stack.room(), 0)
            self.assertNotEqual(_stack.run(threading.get_ident), caller)
            with ads_metafile.open(SAMPLE) as file:
                self.assertTrue(file.clean)

    def test_own_thread(self) -> None:
        """Its stack is large enough, exceptions come through, and the size for other threads stays as it was."""
        before = threading.stack_size()
        self.assertGreater(_stack.on_own_thread(_stack.room), 2 * 2**20)
        with self.assertRaises(ZeroDivisionError):
            _stack.on_own_thread(divmod, 1, 0)
        self.assertEqual(threading.stack_size(), before)

    def test_refusals_come_through(self) -> None:
        def work() -> int:
            try:
                return ads_metafile.open(SAMPLE).contents(1).nbytes
            except ads_metafile.Refused as refused:
                return refused.number

        self.assertEqual(in_thread(work, 64 * 1024), ads_metafile.NO_ROW)

    def test_signal_during_a_call(self) -> None:
        """What the handler raises is raised when the call has ended, not while it uses what it was lent."""
        def interrupt(*_: object) -> None:
            raise InterruptedError

        ended: list[bool] = []
        before = signal.signal(signal.SIGALRM, interrupt)
        try:
            signal.setitimer(signal.ITIMER_REAL, 0.02)
            with self.assertRaises(InterruptedError):
                _stack.on_own_thread(lambda: (time.sleep(0.1), ended.append(True)))
        finally:
            signal.signal(signal.SIGALRM, before)
        self.assertEqual(ended, [True])


class AtOnce(unittest.TestCase):
    def test_two_threads(self) -> None:
        data = support.many(500)
        expected = list(ads_metafile.read(data).records())
        wrong: list[object] = []

        def work() -> None:
            for _ in range(40):
                with ads_metafile.read(data) as file:
                    if not file.clean or list(file.records()) != expected or file.contents(499) != b"abc":
                        wrong.append(file)

        threads = [threading.Thread(target=work) for _ in range(2)]
        for thread in threads:
            thread.start()
        for thread in threads:
            thread.join()
        self.assertEqual(wrong, [])

    def test_closing_beside_a_call(self) -> None:
        """Closing is refused while a call of another thread runs, or comes before or after it; nothing breaks."""
        answers: list[bytes | str] = []
        with tempfile.NamedTemporaryFile() as stored:
            stored.write(support.many(2000))
            stored.flush()
            for mapped in (False, True) * 10:
                file = ads_metafile.open(stored.name, mmap=mapped)
                thread = threading.Thread(target=lambda: answers.append(contents(file)))
                thread.start()
                while not file.closed:
                    try:
                        file.close()
                    except BufferError:
                        time.sleep(0)
                thread.join()
        self.assertEqual(len(answers), 20)
        self.assertLessEqual(set(answers), {b"abc", "closed"})

    def test_the_lock_is_let_go(self) -> None:
        """While one thread is in calls another one runs, though Python itself wouldn't switch."""
        data = ads_metafile.append(support.begun(), support.description(), bytes(64 * 2**20)).data
        table = bytearray(104)
        ticks, stop = [0], threading.Event()

        def tick() -> None:
            while not stop.is_set():
                ticks[0] += 1
                time.sleep(0.0001)

        thread = threading.Thread(target=tick)
        interval = sys.getswitchinterval()
        thread.start()
        sys.setswitchinterval(100)
        try:
            before = ticks[0]
            for _ in range(500):  # a reading takes a few milliseconds, and the machine may be busy
                reading = _library.call("ads_read", Lent(data), len(data), Lent(table, writable=True), 1)
                during = ticks[0] - before
                if during:
                    break
        finally:
            sys.setswitchinterval(interval)
            stop.set()
            thread.join()
        self.assertEqual((reading.count, reading.stop), (1, len(data)))
        self.assertGreater(during, 0)


def contents(file: ads_metafile.File) -> bytes | str:
    try:
        return bytes(file.contents(1999))
    except ValueError:
        return "closed"


if __name__ == "__main__":
    unittest.main()
