"""The package `ads_metafile`: reading a file, its rows, and the calls about a row."""
from __future__ import annotations

import json
import tempfile
import unittest
from pathlib import Path
from unittest import mock

import support
from support import REPOSITORY, SAMPLE, SAMPLE_MULTI, SAMPLE_OPEN, SAMPLE_SERIAL

import ads_metafile
import listings
from ads_metafile import Dependency, Parent, Refused, _rows

ROW = (SAMPLE_SERIAL.encode(), 319, 568, 921, 3, 1178, 0, 80_350_000_000, False, True, 0)


class Reading(unittest.TestCase):
    def test_open_and_read_agree(self) -> None:
        for mapped in (False, True):
            with self.subTest(mapped=mapped), ads_metafile.open(SAMPLE, mmap=mapped) as file:
                self.assertEqual((file.name, file.length, len(file)), (str(SAMPLE), 1178, 1))
                self.assertEqual((file.clean, file.stop, file.number, file.words), (True, 1178, 0, None))
                self.assertEqual((file.header_good, file.strategy, file.mark), (True, "LLC", b""))
                self.assertEqual(list(file.records()), [ROW])
        with ads_metafile.read(SAMPLE.read_bytes()) as file:
            self.assertEqual((file.name, list(file.records())), (None, [ROW]))

    def test_path_types(self) -> None:
        with tempfile.TemporaryDirectory(prefix="a ü ") as folder:
            path = Path(folder) / "file \udcff.ads"
            path.write_bytes(SAMPLE.read_bytes())
            for given in (path, str(path), bytes(path)):
                with ads_metafile.open(given) as file:
                    self.assertEqual((file.name, file.clean), (str(path), True))

    def test_bytes_like_objects(self) -> None:
        data = SAMPLE.read_bytes()
        longer = memoryview(b"xx" + data + b"xx")[2:-2]
        for given in (data, bytearray(data), memoryview(data), longer, memoryview(data).cast("B", (2, 589))):
            with self.subTest(type(given)), ads_metafile.read(given) as file:
                self.assertTrue(file.clean)
                self.assertEqual(bytes(file[0].contents), b"abc")

    def test_strategy_and_mark(self) -> None:
        with ads_metafile.open(SAMPLE_OPEN) as file:
            self.assertEqual((file.strategy, file.mark), ("NUL", b"M" * 90))
        begun = support.begun("NUL", b"****")
        with ads_metafile.read(begun) as file:
            self.assertEqual((file.strategy, file.mark, file.stop, len(file)), ("NUL", b"****", 327, 0))
        with ads_metafile.read(begun[:-1]) as file:
            self.assertEqual((file.strategy, file.mark, file.stop), (None, None, 0))
            self.assertEqual((file.number, file.words), (ads_metafile.CUT, "the bytes end too soon"))

    def test_listings(self) -> None:
        """The library's listing, against what is asked of the listing program."""
        for name, (given, asked) in listings.CASES.items():
            with self.subTest(name), ads_metafile.read(given) as file:
                self.assertEqual(file.listing(), asked)

    def test_not_clean(self) -> None:
        """A file with bytes behind its last chunk keeps the rows before them."""
        data = SAMPLE.read_bytes()
        with ads_metafile.read(data + b"Chunk") as file:
            self.assertEqual((file.clean, file.stop, file.number, len(file)), (False, 1178, ads_metafile.CUT, 1))
            self.assertEqual(bytes(file.contents(0)), b"abc")

    def test_clean_is_what_the_library_says(self) -> None:
        """Number 0 and stop at the end don't make a file clean where ads_is_clean says no, nor the other way round."""
        true_call = ads_metafile._file.call
        for data in (SAMPLE.read_bytes(), b"junk"):
            reading = true_call("ads_is_clean", self._reading(data), len(data))

            def other(name: str, *given: object) -> object:
                return not reading if name == "ads_is_clean" else true_call(name, *given)

            with mock.patch("ads_metafile._file.call", other), ads_metafile.read(data) as file:
                self.assertEqual(file.clean, not reading)

    @staticmethod
    def _reading(data: bytes) -> object:
        from ads_metafile._memory import Lent
        table = bytearray(104 * ads_metafile.most_rows(len(data)))
        return ads_metafile._file.call("ads_read", Lent(data), len(data), Lent(table, writable=True), len(table) // 104)

    def test_most_rows(self) -> None:
        self.assertEqual([ads_metafile.most_rows(length) for length in (0, 855, 856, 2**30)], [1, 1, 2, 1_254_372])
        self.assertEqual(ads_metafile.MOST_BYTES, 2**30)


class Rows(unittest.TestCase):
    def setUp(self) -> None:
        self.file = ads_metafile.read(support.made(b"first", b"second", b"", strategy="NUL", mark=b"****"))

    def test_indexing(self) -> None:
        file = self.file
        self.assertEqual([row.index for row in file], [0, 1, 2])
        self.assertEqual([file[0].index, file[-1].index, file[-3].index], [0, 2, 0])
        self.assertEqual([row.index for row in file[1:]], [1, 2])
        self.assertEqual([row.index for row in file[::-2]], [2, 0])
        self.assertEqual(file[5:], [])
        for outside in (3, -4, 10**30):
            with self.assertRaisesRegex(IndexError, "the file has 3 rows"):
                file[outside]
        with self.assertRaises(TypeError):
            file["0"]

    def test_by_serial(self) -> None:
        self.assertEqual(self.file.by_serial(support.serial(43)).index, 1)
        self.assertEqual(self.file.by_serial(support.serial(44).encode()).index, 2)
        for missing in (support.serial(45), "", "#"):
            with self.assertRaises(KeyError):
                self.file.by_serial(missing)

    def test_values(self) -> None:
        """The values of a row that append made, as the specification has them."""
        row = self.file[1]
        end = self.file[0].end
        self.assertEqual(end, 327 + 568 + 34 + 5 + 254 + 8)
        self.assertEqual(row.record, (support.serial(43).encode(), end, 568 + 344, end + 912 + 34, 6,
                                      end + 912 + 34 + 6 + 254 + 8, 1, 80_350_000_000, False, True, 0))
        self.assertEqual((row.serial, row.place, row.header, row.contents_place, row.bytes, row.end, row.dependencies,
                          row.offset, row.multichunk, row.good, row.ending.value),
                         (row.record[0].decode(), *row.record[1:]))
        self.assertEqual((row.sub_format, row.offset_counts), (support.SUB_FORMAT, True))

    def test_endings(self) -> None:
        """How the end was found: in the samples, and after an append as it was chosen."""
        counted, found, by_minis = ads_metafile.Ending
        with ads_metafile.open(REPOSITORY / "samples/survey.ads") as file:
            self.assertEqual([row.ending for row in file], [counted, found, by_minis, counted])
            self.assertEqual([str(row.ending) for row in file], ["counted", "found", "by mini-chunks", "counted"])
            self.assertEqual([row.as_dict()["ending"] for row in file], [str(row.ending) for row in file])
            self.assertEqual([record[10] for record in file.records()], [0, 1, 2, 0])
        begun = support.made(strategy="NUL", mark=b"****")
        for is_open, ending in ((True, found), (False, counted)):
            appended = ads_metafile.append(begun, support.description(50), b"abc", open=is_open)
            with ads_metafile.read(appended.data) as file:
                self.assertIs(file[0].ending, ending)

    def test_as_dict(self) -> None:
        with ads_metafile.open(SAMPLE) as file:
            given = file[0].as_dict()
        self.assertEqual(json.dumps(given), '{"row": 0, "serial": "' + SAMPLE_SERIAL + '", "place": 319, '
                         '"header": 568, "contents": 921, "bytes": 3, "end": 1178, "dependencies": 0, '
                         '"offset": 80350000000, '
                         '"multichunk": false, "good": true, "sub_format": "ADS\\\\DATA\\\\TEST", '
                         '"ending": "counted"}')

    def test_equality_and_repr(self) -> None:
        again = ads_metafile.read(bytes(self.file.data))
        self.assertEqual(list(self.file), list(again))
        self.assertEqual(len({*self.file, *again}), 3)
        self.assertNotEqual(self.file[0], self.file[1])
        self.assertNotEqual(self.file[0], ads_metafile.open(SAMPLE)[0])
        self.assertNotEqual(self.file[0], self.file[0].record)
        self.assertEqual(repr(self.file[0]), f"<Row 0: {support.serial(42)} ADS\\DATA\\TEST, 5 bytes, sum good>")
        self.assertEqual(repr(self.file), "<ads_metafile.File None: 3 rows, clean>")

    def test_bad_sum(self) -> None:
        with ads_metafile.open(REPOSITORY / "samples/bad-chunk-sum.ads") as file:
            self.assertEqual((file.number, file.header_good, file[0].good), (0, True, False))
            self.assertIn("sum bad", repr(file[0]))
        with ads_metafile.open(REPOSITORY / "samples/bad-header-sum.ads") as file:
            self.assertEqual((file.number, file.header_good, file[0].good), (0, False, True))

    def test_places_in_a_chunk(self) -> None:
        """The distances of values are those of the real bytes: label before each, line feed behind."""
        for sample in (SAMPLE, SAMPLE_MULTI, SAMPLE_OPEN):
            data = sample.read_bytes()
            with ads_metafile.read(data) as file:
                place = file[0].place
            for label, width in _rows._LINES:
                at = place + _rows._AT[label]
                self.assertEqual(data[at - len(label):at], label.encode())
                self.assertEqual(data[at + width:at + width + 1], b"\n")
        self.assertEqual((_rows.SUB_FORMAT_AT, _rows._HEAD, _rows._DEPENDENCY), (46, 568, 344))

    def test_offset_counts(self) -> None:
        for changed, counts in (({}, True), ({"synch_type": "SPE"}, False), ({"time_standard": "NUL"}, False)):
            data = ads_metafile.append(support.begun(), support.description(**changed)).data
            with ads_metafile.read(data) as file:
                self.assertEqual((file[0].offset_counts, file[0].offset), (counts, 80_350_000_000 if counts else 0))


class Calls(unittest.TestCase):
    def setUp(self) -> None:
        self.data = support.made(b"first", b"second", b"")
        self.file = ads_metafile.read(self.data)

    def refused(self, number: int, call: object, *given: object) -> None:
        with self.assertRaises(Refused) as caught:
            call(*given)  # type: ignore[operator]
        self.assertEqual(caught.exception.number, number)

    def test_parent(self) -> None:
        self.assertEqual(self.file.parent(2, 0), Parent(row=1, agree=True))
        self.refused(ads_metafile.NO_ROW, self.file.parent, 3, 0)
        self.refused(ads_metafile.NO_ROW, self.file.parent, 2**64 - 1, 0)
        self.refused(ads_metafile.NO_DEPENDENCY, self.file.parent, 0, 0)

    def test_parents(self) -> None:
        """The second dependency names another sub-format than its row has, the third no row of the file."""
        with ads_metafile.open(REPOSITORY / "samples" / "survey.ads") as file:
            first, second, elsewhere = support.serial(42), support.serial(43), support.serial(48)
            self.assertEqual(file.parents(3), [
                Dependency(first, "ADS\\DATA\\SHOTS", 0, True), Dependency(second, "ADS\\DATA\\SHOTS", 1, False),
                Dependency(elsewhere, "ADS\\DATA\\GRID", None, False)])
            self.assertEqual([file.parent(3, dependency) for dependency in range(3)],
                             [Parent(0, True), Parent(1, False), None])
            self.assertEqual(file.parents(0), [])
            self.refused(ads_metafile.NO_ROW, file.parents, 4)

    def test_contents(self) -> None:
        self.assertEqual([bytes(self.file.contents(row)) for row in range(3)], [b"first", b"second", b""])
        self.assertEqual([bytes(row.contents) for row in self.file], [b"first", b"second", b""])
        self.refused(ads_metafile.NO_ROW, self.file.contents, 3)

    def test_gather(self) -> None:
        with ads_metafile.open(SAMPLE_MULTI) as file:
            self.assertEqual((file[0].multichunk, file.gather(0, "P2/91"), file.gather(0, b"P2/91")),
                             (True, b"12345", b"12345"))
            for undeclared in ("P2/92", "", "P2/91 long ID", b"\x00"):
                self.refused(ads_metafile.NO_DEPENDENCY, file.gather, 0, undeclared)
            self.refused(ads_metafile.NO_ROW, file.gather, 1, "P2/91")
        self.refused(ads_metafile.NO_DEPENDENCY, self.file.gather, 0, "P2/91")
        with ads_metafile.open(REPOSITORY / "samples" / "survey.ads") as file:
            self.assertEqual([file.gather(2, short_id) for short_id in ("P2/91", "GYRO", "SPARE")],
                             [b"12.5\n12.7\n", b"181.0\n181.1\n", b""])

    def test_numbers_never_wrap(self) -> None:
        calls = (self.file.contents, self.file.parents, lambda row: self.file.parent(row, 0),
                 lambda dependency: self.file.parent(1, dependency), lambda row: self.file.gather(row, "P2/91"))
        for call in calls:
            for outside in (-1, 2**64, 2**64 + 1):
                with self.assertRaisesRegex(ValueError, "outside 0 to 2\\^64 - 1"):
                    call(outside)
            for wrong in (None, 1.0, "1"):
                with self.assertRaises(TypeError):
                    call(wrong)  # type: ignore[arg-type]

    def test_texts(self) -> None:
        with self.assertRaisesRegex(ValueError, "short ID has a character outside ASCII"):
            self.file.gather(0, "ü")
        with self.assertRaisesRegex(TypeError, "short ID must be str or bytes, not int"):
            self.file.gather(0, 1)  # type: ignore[arg-type]

    def test_refused(self) -> None:
        with self.assertRaises(Refused) as caught:
            self.file.contents(9)
        error = caught.exception
        self.assertEqual((error.number, error.name, error.words), (13, "NO_ROW", "no such row"))
        self.assertEqual(str(error), "refused with 13 (no such row)")
        self.assertEqual(str(Refused(11, "too long")).split(": ")[-1], "too long")
        self.assertEqual((Refused(99).name, Refused(99).number), ("UNKNOWN", 99))


if __name__ == "__main__":
    unittest.main()
