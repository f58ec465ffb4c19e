"""The price statement: `File.price` and `ads price`.

What is right in a statement, the library says, and tests/compare shows it; here is what package and command make of
that.
"""
from __future__ import annotations

import json
import os
import unittest

from running import CommandTest, Ended, chunks
from support import REPOSITORY, begun, made, many
from metafile_bytes import header, plain, serial

import ads_metafile
from ads_metafile import PricedRow, Refused, Statement

SAMPLE = REPOSITORY / "samples" / "damaged-04-stray-byte.ads"
TEXT = "0 0 100\n1 1 107\n2 1024 107\n3 1025 114\n4 3 0\n5 652 107\ntotal 535\n"
PARTS = (319, 7807, 1)
HIGHEST = 2**64 - 1
NINES = 10**18 - 1


class Package(unittest.TestCase):
    def test_the_sample(self) -> None:
        with ads_metafile.open(SAMPLE) as file:
            priced = file.price(100, 7)
            self.assertEqual(priced, Statement(TEXT, *PARTS))
            self.assertEqual((priced.text, priced.header, priced.chunks, priced.unread), priced)
            self.assertEqual(sum(PARTS), file.length)
            self.assertEqual(priced.rows[:2], [PricedRow(0, 0, 100), (1, 1, 107)])
            self.assertEqual([row.bytes for row in priced.rows], [row.bytes for row in file])
            self.assertEqual((priced.total, sum(row.cents for row in priced.rows)), (535, 535))
            self.assertEqual(file.price(kib=7, chunk=100), priced)

    def test_without_rows(self) -> None:
        for data, parts in ((b"", (0, 0, 0)), (b"x" * 64, (0, 0, 64)), (begun(), (319, 0, 0)),
                            (begun("NUL", b"M" * 90), (499, 0, 0)), (begun()[:-1], (0, 0, 318))):
            with ads_metafile.read(data) as file:
                priced = file.price(HIGHEST, HIGHEST)
                self.assertEqual((priced, priced.rows, priced.total), (("total 0\n", *parts), [], 0))

    def test_the_highest_total(self) -> None:
        with ads_metafile.read(made(b"", b"abc")) as file:
            self.assertEqual(file.price(0, NINES).text, f"0 0 0\n1 3 {NINES}\ntotal {NINES}\n")
            for rates in ((0, NINES + 1), (1, NINES), (NINES, 0), (HIGHEST, 0), (0, HIGHEST), (HIGHEST, HIGHEST)):
                with self.assertRaises(Refused) as caught:
                    file.price(*rates)
                self.assertEqual(str(caught.exception), "refused with 21 (the total has more than 18 digits)")
                self.assertEqual((caught.exception.number, caught.exception.name), (ads_metafile.TOTAL, "TOTAL"))

    def test_rates_outside(self) -> None:
        with ads_metafile.read(made(b"abc")) as file:
            for outside in (-1, 2**64, 10**40):
                with self.assertRaisesRegex(ValueError, f"^chunk is {outside}, outside 0 to 2\\^64 - 1$"):
                    file.price(outside, 0)
                with self.assertRaisesRegex(ValueError, f"^kib is {outside}, outside 0 to 2\\^64 - 1$"):
                    file.price(0, outside)
            for wrong in (1.5, "1", None):
                with self.assertRaises(TypeError):
                    file.price(wrong, 0)  # type: ignore[arg-type]

    def test_many(self) -> None:
        """Lines of every length fit into the buffer."""
        with ads_metafile.read(many(12_000)) as file:
            self.assertEqual(file.price(1, 2).text, "".join(f"{row} 3 3\n" for row in range(12_000)) + "total 36000\n")
            most = NINES // 12_000
            self.assertEqual(file.price(most, 0).rows[-1], (11_999, 3, most))


class Command(CommandTest):
    def setUp(self) -> None:
        super().setUp()
        self.path("a.ads", chunks(b"", b"abc", b"x" * 1025))
        self.path("stray.ads", SAMPLE.read_bytes())

    def price(self, name: str, chunk: object = 100, kib: object = 7, *more: str) -> Ended:
        return self.run_ads("price", name, "--chunk", str(chunk), "--kib", str(kib), *more)

    def test_the_statement_and_the_parts(self) -> None:
        ended = self.price("a.ads")
        self.assertEqual((ended.status, ended.bytes), (0, b"0 0 100\n1 3 107\n2 1025 114\ntotal 321\n"))
        self.assertEqual(ended.errors, "header 319\nchunks 3596\nunread 0\n")
        self.assertEqual(self.run_ads("price", "--kib=7", "--chunk=0100", "a.ads").bytes, ended.bytes)

    def test_bad_sums(self) -> None:
        """They cost nothing, and don't change the status."""
        self.path("b.ads", header("LLC", b"", off=1) + plain(b"", serial("00042"), b"abc", off=1))
        ended = self.price("b.ads", HIGHEST, HIGHEST)
        self.assertEqual((ended.status, ended.output), (0, "0 3 0\ntotal 0\n"))
        self.assertEqual(ended.errors, "header 319\nchunks 859\nunread 0\n")

    def test_not_clean(self) -> None:
        stops = ("header {}\nchunks {}\nunread {}\nads: b.ads: not clean: stops at byte {} with 4 "
                 "(the bytes end too soon); {} behind it {} not in the table\n")
        for data, output, said in (
                (SAMPLE.read_bytes(), TEXT, (*PARTS, "8,126", "1 byte", "is")),
                (chunks(b"abc", b"abc")[:-1], "0 3 107\ntotal 107\n", (319, 859, 858, "1,178", "858 bytes", "are")),
                (b"x" * 64, "total 0\n", (0, 0, 64, "0", "64 bytes", "are"))):
            self.path("b.ads", data)
            ended = self.price("b.ads")
            self.assertEqual((ended.status, ended.output, ended.errors), (1, output, stops.format(*said)))
        self.path("none.ads", b"")
        ended = self.price("none.ads")
        self.assertEqual((ended.status, ended.output), (1, "total 0\n"))
        self.assertEqual(ended.errors, "header 0\nchunks 0\nunread 0\nads: none.ads: not clean: no bytes\n")

    def test_json(self) -> None:
        for name, status in (("stray.ads", 1), ("a.ads", 0)):
            ended = self.price(name, 100, 7, "--json")
            self.assertEqual((ended.status, ended.errors, ended.output.count("\n")), (status, "", 1))
            found = json.loads(ended.output)
            with ads_metafile.open(self.path(name)) as file:
                priced = file.price(100, 7)
            self.assertEqual(list(found.items()), [
                ("file", name), ("rows", [row._asdict() for row in priced.rows]), ("total", priced.total),
                ("header", priced.header), ("chunks", priced.chunks), ("unread", priced.unread),
                ("clean", status == 0)])
        found = json.loads(self.price("a.ads", NINES // 3, 0, "--json").output)
        self.assertEqual(found["rows"][2], {"row": 2, "bytes": 1025, "cents": NINES // 3})
        self.assertEqual((found["total"], type(found["total"])), (NINES, int))

    def test_refused(self) -> None:
        for more in ((), ("--json",)):
            ended = self.price("a.ads", 10**18, 0, *more)
            self.assertEqual((ended.status, ended.output, ended.errors),
                             (1, "", "ads: a.ads: refused with 21 (the total has more than 18 digits)\n"))

    def test_usage(self) -> None:
        for rate in ("-1", "x", "1.5", "1e3", "", " 1", "+1", "1_000", "\u0663", "0x10", str(2**64), "9" * 40):
            for option in ("--chunk", "--kib"):
                other = "--kib" if option == "--chunk" else "--chunk"
                ended = self.expect(2, "price", "a.ads", other, "1", option, rate)
                self.assertIn(f"argument {option}: ", ended.errors)
                self.assertIn("isn't a whole number of cents from 0 to 18446744073709551615; see", ended.errors)
                self.assertEqual(ended.output, "")
        for given, said in ((("a.ads",), "the following arguments are required: --chunk, --kib"),
                            (("a.ads", "--chunk", "1"), "the following arguments are required: --kib"),
                            (("--chunk", "1", "--kib", "1"), "the following arguments are required: FILE")):
            self.assertIn(said, self.expect(2, "price", *given).errors)
        self.assertEqual(self.price("a.ads", "0" * 5000 + "1", 0).lines[-1], "total 3")
        self.assertEqual(self.expect(3, "price", "lost.ads", "--chunk=1", "--kib=1").errors,
                         "ads: lost.ads: no such file\n")

    def test_closed_streams(self) -> None:
        """A closed stream is quiet, and the status stays."""
        for closed, status in (((1,), 1), ((2,), 1), ((1, 2), 1)):
            streams = {"stdout" if each == 1 else "stderr": None for each in closed}
            ended = self.run_ads("price", "stray.ads", "--chunk=100", "--kib=7", **streams,
                                 preexec_fn=lambda: [os.close(each) for each in closed])
            self.assertEqual(ended.status, status)
            self.assertEqual(ended.output, "" if 1 in closed else TEXT)


if __name__ == "__main__":
    unittest.main()
