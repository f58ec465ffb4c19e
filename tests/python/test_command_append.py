"""`ads append`: the new row, inputs, refusals with what to do, and a standard output that fails.

The lock is in test_command_lock.py; what a failing disk leaves is in tests/faults.
"""
import io
import os
import resource
import subprocess
import unittest
from contextlib import redirect_stderr
from unittest import mock

from running import SERIAL, CommandTest, Ended, chunk_options, chunks, header, rows
from metafile_bytes import plain, serial

import ads_metafile
from ads_metafile.command import inputs, main
from ads_metafile.disk import appending

FILE = chunks(b"abc", b"xyz")


class AppendTest(CommandTest):
    def setUp(self) -> None:
        super().setUp()
        self.file = self.path("a.ads", FILE)
        self.path("data", b"12345")

    def append(self, status: int, *options: str, number: str = SERIAL, **more: object) -> Ended:
        """Runs append. Refused, the file is as it was; else its old bytes are, and it is clean."""
        before = self.file.read_bytes()
        ended = self.expect(status, "append", "a.ads", *chunk_options(number), *options, **more)
        after = self.file.read_bytes()
        self.assertEqual(after[:len(before)], before)
        self.assertEqual(len(rows(after)), len(rows(before)) + (status == 0))
        self.assertEqual(status == 0, after != before)
        return ended


class Appended(AppendTest):
    def test_the_row_is_printed(self) -> None:
        ended = self.append(0, "--contents=data")
        self.assertEqual((ended.output, ended.errors), (f"row 2 appended: 2,037 to 2,898, serial {SERIAL}\n", ""))
        self.assertEqual(self.file.read_bytes(), FILE + plain(b"", SERIAL, b"12345"))

    def test_parents_and_specific_data(self) -> None:
        self.path("specific", b"ticks of 2 ms")
        self.append(0, "--contents=data", "--specific=specific", "--parent=1", "--parent", "0")
        with ads_metafile.open(self.file) as file:
            self.assertEqual([each.row for each in file.parents(2)], [1, 0])
            self.assertEqual(file[2].header, 568 + 2 * 344 + 13)

    def test_open_contents(self) -> None:
        self.file.write_bytes(chunks(b"abc", strategy="NUL", mark=b"****"))
        self.append(0, "--contents=data", "--open")
        self.assertIn(b"Chunk_Content_Length=000000000000\n12345****", self.file.read_bytes())

    def test_standard_input(self) -> None:
        self.append(0, "--contents=-", given=b"from a pipe" * 100_000)
        self.assertEqual(bytes(ads_metafile.open(self.file)[2].contents), b"from a pipe" * 100_000)
        self.append(0, "--contents=data", "--specific=-", number="auto", given=b"specific")
        self.append(0, "--contents=-", number="auto", stdin=subprocess.DEVNULL)
        self.append(0, "--contents=a.ads", number="auto")
        said = self.append(2, "--contents=-", "--specific=-", number="auto").errors
        self.assertIn("only one of --contents and --specific can be standard input", said)

    def test_what_is_printed_can_fail(self) -> None:
        with open("/dev/full", "wb") as full:
            self.file.write_bytes(FILE)
            ended = self.expect(3, "append", "a.ads", *chunk_options(), "--contents=data", stdout=full)
        self.assertEqual(ended.errors, "ads: standard output: no space left on device; but it is done: row 2 appended: "
                         f"2,037 to 2,898, serial {SERIAL}\n")
        self.assertEqual(len(rows(self.file.read_bytes())), 3)
        ours, theirs = os.pipe()
        os.close(ours)
        with open(theirs, "wb") as closed:
            self.assertEqual(self.append(0, "--contents=data", number="auto", stdout=closed).errors, "")
        self.append(0, "--contents=data", number="auto", preexec_fn=lambda: [os.close(each) for each in (0, 1, 2)])

    def test_memory(self) -> None:
        """The file once, the contents and the new chunk; the table of rows."""
        size, long = 96 << 20, 16 << 20
        self.file.write_bytes(FILE)
        self.path("long", bytes(size))
        self.append(0, "--contents=long")
        self.path("data", bytes(long))
        with self.start("append", "a.ads", *chunk_options("auto"), "--contents=data") as process:
            _, status, used = os.wait4(process.pid, 0)
            process.returncode = status
        self.assertEqual(status, 0)
        self.assertLess(used.ru_maxrss * 1024, size + 2 * long + (40 << 20))


class Refused(AppendTest):
    def said(self, refusal: int, hint: str, *options: str, **more: object) -> None:
        errors = self.append(1, "--contents=data", *options, **more).errors
        self.assertEqual(errors, f"ads: a.ads: refused with {refusal} ({ads_metafile.WORDS[refusal]}): {hint}\n")

    def test_not_clean(self) -> None:
        self.file.write_bytes(FILE[:-1])
        self.said(12, "not clean: stops at byte 1,178 with 4 (the bytes end too soon); `ads cut-back a.ads` shows what "
                  "stands behind the stop")

    def test_no_bytes(self) -> None:
        self.file.write_bytes(b"")
        self.said(12, "not clean: no bytes; only `ads begin` starts a file, under a name that is free")
        self.file.write_bytes(b"F")
        self.said(12, "not clean: stops at byte 0 with 4 (the bytes end too soon); `ads cut-back a.ads` shows what "
                  "stands behind the stop")

    def test_a_known_serial_number(self) -> None:
        self.said(9, f"row 1 has {serial('00043')}; give another one, or --serial auto", number=serial("00043"))

    def test_parents(self) -> None:
        hint = "parents are at most 16 different rows; the file has 2 rows, 0 to 1"
        self.said(13, hint, "--parent=2")
        self.said(13, hint, "--parent=0", "--parent=0")
        self.said(13, hint, "--parent=99999999999999999999999999")
        self.said(13, hint, *["--parent=1"] * 17)

    def test_open(self) -> None:
        self.said(16, "append it without --open", "--open")

    def test_a_multichunk(self) -> None:
        self.said(17, "MultiChunks are only read", "--sub-format=ADS\\SYS\\MultiChunk")

    def test_a_mark_with_a_zero_byte(self) -> None:
        self.file.write_bytes(header("NUL", b"*\0*"))
        self.said(15, "nothing can be appended to this file, for a cut append couldn't be told from a whole one")

    def test_too_long(self) -> None:
        os.truncate(self.path("long", b""), 2**30 + 1)
        limit = f"refused with 11 ({ads_metafile.WORDS[11]}): "
        for options in (("--contents=long",), ("--contents=data", "--specific=long")):
            self.assertEqual(self.append(1, *options).errors, f"ads: a.ads: {limit}long has 1,073,741,825 bytes\n")
        ended = self.expect(1, "append", "long", *chunk_options(), "--contents=data")
        self.assertEqual(ended.errors, f"ads: long: {limit}the file has 1,073,741,825 bytes, and at most 1,073,741,824 "
                         "are read\n")

    def test_a_pipe_that_is_too_long(self) -> None:
        ours, theirs = os.pipe()
        os.write(theirs, bytes(200))
        os.close(theirs)
        with io.FileIO(ours) as pipe, mock.patch.object(inputs, "MOST_BYTES", 100), self.assertRaisesRegex(
                ads_metafile.Refused, "refused with 11 .*: a pipe has more than 100 bytes"):
            inputs.read_pieces(pipe, "a pipe")

    def test_a_file_that_would_be_too_long(self) -> None:
        """As with a file near 2^30 bytes: the buffer has no room for the chunk."""
        errors = io.TextIOWrapper(io.BytesIO())
        with mock.patch.object(appending, "room_for", lambda length, *more: length + 600), redirect_stderr(errors):
            status = main(["append", str(self.file), *chunk_options(), f"--contents={self.path('data')}"])
        errors.seek(0)
        said = (f"ads: {self.file}: refused with 18 ({ads_metafile.WORDS[18]}): the file would have more than 2^30 "
                "bytes, which can't be read; begin another file\n")
        self.assertEqual((status, errors.read()), (1, said))
        self.assertEqual(self.file.read_bytes(), FILE)


class Unusable(AppendTest):
    def said(self, status: int, name: str, words: str, *options: str, **more: object) -> None:
        ended = self.expect(status, "append", name, *chunk_options(), *(options or ("--contents=data",)), **more)
        self.assertEqual(ended.errors, f"ads: {words}\n")
        self.assertEqual(self.file.read_bytes(), FILE)

    def test_no_regular_file(self) -> None:
        os.mkfifo(self.path("pipe"))
        self.said(3, ".", ".: is a directory")
        self.said(3, "pipe", "pipe: isn't a regular file")
        self.said(3, "/dev/null", "/dev/null: isn't a regular file")
        self.said(3, "missing.ads", "missing.ads: no such file")
        self.assertFalse(self.path("missing.ads").exists())

    def test_inputs(self) -> None:
        self.said(3, "a.ads", "missing: no such file", "--contents=missing")
        self.said(3, "a.ads", ".: is a directory", "--contents=.")
        self.said(3, "a.ads", "standard input: bad file descriptor", "--contents=-", preexec_fn=lambda: os.close(0))

    def test_without_permission(self) -> None:
        for mode in (0, 0o444, 0o222):
            self.file.chmod(mode)
            ended = self.expect(3, "append", "a.ads", *chunk_options(), "--contents=data", unprivileged=True)
            self.assertEqual(ended.errors, "ads: a.ads: permission denied\n")
            self.file.chmod(0o600)
            self.assertEqual(self.file.read_bytes(), FILE)

    def test_a_full_disk(self) -> None:
        def limit() -> None:
            resource.setrlimit(resource.RLIMIT_FSIZE, (2500, 2500))
        self.said(3, "a.ads", "a.ads: writing failed (file too large); nothing was appended, the file is cut back to "
                  "its old end, byte 2,037", preexec_fn=limit)


if __name__ == "__main__":
    unittest.main()
