"""Numbers with spaces in front, as older recorders wrote them: the package and the command on such files, and one serial
number under two writings of its check."""
from __future__ import annotations

import json
import unittest

from running import CommandTest, chunk_options
from support import begun, description
from metafile_bytes import plain, serial

import ads_metafile
from ads_metafile import Refused
from listings import PADDED

ZEROS, SPACES = serial("00042"), serial("00042", fill=" ")
SECOND = serial("00043", fill=" ")
NEW = serial("00044", fill=" ")


class Package(unittest.TestCase):
    def setUp(self) -> None:
        self.file = ads_metafile.read(PADDED)

    def test_the_reading(self) -> None:
        file = self.file
        self.assertTrue(file.clean and file.header_good and all(row.good for row in file))
        self.assertEqual((file.strategy, file.mark), ("NUL", b"****"))
        self.assertEqual([row.serial for row in file], [SPACES, SECOND])
        self.assertEqual([str(row.ending) for row in file], ["found", "by mini-chunks"])
        self.assertEqual(file.gather(1, "P2/91"), b"12345")
        self.assertEqual(file.parents(1), [(ZEROS, "ADS\\DATA\\TEST", 0, True)])

    def test_by_serial(self) -> None:
        self.assertEqual((ZEROS[-3:], SPACES[-3:]), ("001", "  1"))
        for asked in (ZEROS, SPACES, SPACES.encode(), ZEROS[:35] + " 01"):
            self.assertEqual(self.file.by_serial(asked).index, 0, asked)
        zeros = ads_metafile.read(begun() + plain(b"", ZEROS, b""))
        for asked in (ZEROS, SPACES):
            self.assertEqual(zeros.by_serial(asked).serial, ZEROS)

    def test_by_serial_of_none(self) -> None:
        """Another check, none, or one out of form is no serial number, whatever its first 35 bytes are."""
        for check in ("002", "  2", "   ", "1  ", "0 1", "", "1", " 1", "0001", "\t01"):
            with self.assertRaises(KeyError) as caught:
                self.file.by_serial(ZEROS[:35] + check)
            self.assertEqual(caught.exception.args, ((ZEROS[:35] + check).encode(),))
        no_check = serial("00041")
        self.assertEqual(no_check[-3:], "000")
        zero = ads_metafile.read(begun() + plain(b"", no_check, b""))
        self.assertEqual(zero.by_serial(no_check[:35] + "  0").index, 0)
        with self.assertRaises(KeyError):
            zero.by_serial(no_check[:35] + "   ")

    def test_append(self) -> None:
        with self.assertRaises(Refused) as caught:
            ads_metafile.append(PADDED, description(42), b"abc")
        self.assertEqual(caught.exception.number, ads_metafile.REPEATED)
        done = ads_metafile.append(PADDED, description(serial_number=NEW), b"abc", parents=[0])
        data = bytes(done.data)
        self.assertEqual(ads_metafile.read(data)[2].serial, NEW)
        new = data[len(PADDED):]
        self.assertIn(b"Chunk_Header_Length=000000000880\n", new)
        self.assertIn(b"Dependency_Serial_Number=" + SPACES.encode() + b"\n", new)
        self.assertIn(b"Chunk_Content_Length=000000000004\nabc****", new)

    def test_begin(self) -> None:
        data = ads_metafile.begin(strategy="NUL", mark="****", serial=SPACES, recorded="20240229", recorder="RECORDER",
                                  written="20240301", writer="DESK")
        self.assertIn(b"Separator_Strategy=NUL004\n", data)
        self.assertIn(b"Chunk_Serial_Number=" + SPACES.encode() + b"\n", data)
        self.assertTrue(ads_metafile.read(data).clean)


class Command(CommandTest):
    def setUp(self) -> None:
        super().setUp()
        self.file = self.path("a.ads", PADDED)
        self.path("data", b"abc")

    def test_serial_numbers_are_shown_as_they_stand(self) -> None:
        for form in ("table", "tsv", "csv"):
            lines = self.expect(0, "list", "a.ads", f"--format={form}").output
            self.assertIn(SPACES, lines, form)
            self.assertNotIn(ZEROS, lines, form)
        told = json.loads(self.expect(0, "list", "a.ads", "--format=json").output)
        self.assertEqual([row["serial"] for row in told["rows"]], [SPACES, SECOND])
        named = json.loads(self.expect(0, "parents", "a.ads", "1", "--json").output)["dependencies"]
        self.assertEqual([(each["serial"], each["parent"], each["agree"]) for each in named], [(ZEROS, 0, True)])

    def test_append_names_the_row(self) -> None:
        ended = self.expect(1, "append", "a.ads", *chunk_options(ZEROS), "--contents=data")
        self.assertEqual(ended.errors, "ads: a.ads: refused with 9 (the serial number is already in a row): "
                         f"row 0 has {SPACES}; give another one, or --serial auto\n")
        self.assertEqual(self.file.read_bytes(), PADDED)

    def test_append_writes_what_was_given(self) -> None:
        ended = self.expect(0, "append", "a.ads", *chunk_options(NEW), "--contents=data", "--parent=0")
        self.assertEqual(ended.output, f"row 2 appended: 3,030 to 4,241, serial {NEW}\n")
        self.assertEqual(ads_metafile.read(self.file.read_bytes())[2].serial, NEW)


if __name__ == "__main__":
    unittest.main()
