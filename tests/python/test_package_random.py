"""Random bytes, random damage and strange arguments: every call answers, or raises what it says; nothing crashes."""
from __future__ import annotations

import random
import unittest
from typing import Any, Callable

import support
from support import REPOSITORY, SAMPLE, SAMPLE_MULTI, SAMPLE_OPEN

import ads_metafile
from ads_metafile import Refused

STRANGE: tuple[Any, ...] = (None, True, -1, 0, 1, 2**63, 2**64 - 1, 2**64, 10**40, 1.5, "", "P2/91", "\0", "ü", b"",
                            b"\xff" * 99, bytearray(b"x"), memoryview(b"abcdef")[::2], [], [-1], (1, 2), {}, object())
FILES = ("survey.ads", "relations.ads", "relations-dated.ads", "ancestors.ads", "circle.ads")
EXPECTED = (Refused, TypeError, ValueError, BufferError, LookupError)


class Random(unittest.TestCase):
    def setUp(self) -> None:
        self.random = random.Random(20240229)

    def damaged(self, data: bytes) -> bytes:
        """The bytes with some changed, doubled, cut out or cut off."""
        changed = bytearray(data)
        for _ in range(self.random.randrange(1, 4)):
            at = self.random.randrange(len(changed) + 1)
            part = changed[at:at + self.random.randrange(40)]
            changed[at:at + self.random.randrange(40)] = self.random.choice((b"", part, bytes(part)[::-1], b"\0" * 9))
        end = self.random.randrange(len(changed) + 1) if self.random.random() < 0.2 else len(changed)
        return bytes(changed[:end])

    def use(self, data: bytes) -> int:
        """Every question about the file, with rows that are there and rows that aren't. The answer is its number."""
        with ads_metafile.read(data) as file:
            self.assertTrue(0 <= file.stop <= len(data))
            for row in range(len(file) + 2):
                for ask in (lambda: file.parents(row), lambda: file.parent(row, self.random.randrange(3)),
                            lambda: file.ancestors(row), lambda: bytes(file.contents(row)),
                            lambda: file.gather(row, "P2/91"),
                            lambda: file.relations_check(row), file.relations_check_latest):
                    try:
                        ask()
                    except Refused as refused:
                        self.assertIn(refused.number, (13, 14, 19, 20, 23))
            for row in file:
                self.assertEqual(bytes(row.contents), bytes(file.contents(row.index)))
                self.assertTrue(file.stop >= row.end > row.contents_place > row.place > 0)
            priced = file.price(100, 7)
            self.assertEqual(priced.header + priced.chunks + priced.unread, len(data))
            self.assertEqual(priced.unread, len(data) - file.stop)
            self.assertEqual((len(priced.rows), sum(row.cents for row in priced.rows)), (len(file), priced.total))
            self.assertIn("end ", file.listing())
            self.assertEqual(len(file.relations_write()) % 605, 131)
            self.assertEqual(file.mark is None, file.stop == 0)
            self.assertEqual(ads_metafile.unpack(ads_metafile.pack(data)), data)
            return file.number

    def test_damaged_files(self) -> None:
        paths = (SAMPLE, SAMPLE_MULTI, SAMPLE_OPEN, *(REPOSITORY / "samples" / name for name in FILES))
        files = [path.read_bytes() for path in paths]
        numbers = {self.use(self.damaged(self.random.choice(files))) for _ in range(400)}
        self.assertLessEqual({0, 1, 4, 5, 6}, numbers)

    def test_random_bytes(self) -> None:
        for _ in range(100):
            self.assertIn(self.use(self.random.randbytes(self.random.randrange(300))), (1, 4))

    def test_damaged_blocks(self) -> None:
        """What is taken, is packed."""
        packed = ads_metafile.pack(SAMPLE_MULTI.read_bytes())
        numbers = set()
        for _ in range(400):
            data = self.damaged(packed[:512 * self.random.randrange(1, 5)])
            try:
                self.assertEqual(ads_metafile.pack(ads_metafile.unpack(data)), data)
                numbers.add(0)
            except Refused as refused:
                numbers.add(refused.number)
        self.assertLessEqual({0, 27, 29}, numbers)

    def test_strange_arguments(self) -> None:
        file = ads_metafile.open(SAMPLE_MULTI)
        begun = support.begun()
        calls: dict[str, Callable[[Any], object]] = {
            "getitem": lambda each: file[each], "by_serial": file.by_serial, "parents": file.parents,
            "row": lambda each: file.parent(each, 0), "dependency": lambda each: file.parent(0, each),
            "ancestors": file.ancestors,
            "contents": file.contents, "gather": lambda each: file.gather(each, "P2/91"),
            "relations": file.relations_check, "short_id": lambda each: file.gather(0, each),
            "chunk": lambda each: file.price(each, 0), "kib": lambda each: file.price(0, each),
            "read": lambda each: ads_metafile.read(each).listing(), "pack": ads_metafile.pack,
            "unpack": ads_metafile.unpack,
            "strategy": lambda each: ads_metafile.begin(strategy=each, serial=support.serial(1), recorded="20240229",
                                                        recorder=each, written="20240229", writer=each, mark=each),
            "append": lambda each: ads_metafile.append(each, support.description()),
            "description": lambda each: ads_metafile.append(begun, each),
            "data": lambda each: ads_metafile.append(begun, support.description(), each),
            "specific": lambda each: ads_metafile.append(begun, support.description(), specific=each),
            "parent": lambda each: ads_metafile.append(begun, support.description(), parents=[each]),
            "into": lambda each: ads_metafile.append_into(each, 0, support.description()),
            "length": lambda each: ads_metafile.append_into(bytearray(2000), each, support.description()),
            "serial": lambda each: ads_metafile.serial_number(support.WHEN, each, 1),
            "number": lambda each: ads_metafile.serial_number(support.WHEN, "A", each),
        }
        raised = 0
        for name, call in calls.items():
            for each in STRANGE:
                with self.subTest(name, given=repr(each)[:40]):
                    try:
                        call(each)
                    except EXPECTED:
                        raised += 1
        self.assertGreater(raised, len(calls) * len(STRANGE) // 2)

    def test_random_appends(self) -> None:
        """Files that grow by random chunks read back as handed in; a row rests on its parents, and on what they do."""
        for strategy, mark in (("LLC", b""), ("NUL", b"mark"), ("NUL", b"\n")):
            data, given = support.begun(strategy, mark), []
            for row in range(12):
                contents = self.random.randbytes(self.random.randrange(50))
                parents = self.random.sample(range(row), self.random.randrange(min(row, 16) + 1))
                specific = self.random.randbytes(self.random.randrange(9))
                appended = ads_metafile.append(data, support.description(row), contents, parents=parents,
                                               specific=specific)
                data = bytes(appended.data)
                given.append((support.serial(row), contents, parents, 568 + 344 * len(parents) + len(specific)))
            with ads_metafile.read(data) as file:
                self.assertTrue(file.clean and all(row.good for row in file))
                self.assertEqual([(row.serial, bytes(row.contents), [found.row for found in file.parents(row.index)],
                                   row.header) for row in file], given)
                rests: list[set[int]] = []
                for row, (_, _, parents, _) in enumerate(given):
                    rests.append(set(parents).union(*(rests[parent] for parent in parents)))
                    self.assertEqual(file.ancestors(row), (sorted(rests[row]), 0))


if __name__ == "__main__":
    unittest.main()
