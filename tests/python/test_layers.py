"""A product above the library names no crate that judges bytes: its own files, and its line in crates.txt."""
import re
import unittest
from pathlib import Path

ROOT = Path(__file__).resolve().parents[2]
JUDGES = "chunk|lines|fields|sums|search"
MADE = ROOT / "crates/price/out"
NAMED = re.compile(rf"\b(?:{JUDGES})::|\buse (?:{JUDGES})\b|Rattle\.(?:{JUDGES})\.")


class Layers(unittest.TestCase):
    def test_price_names_no_judge_of_bytes(self) -> None:
        files = [path for path in (ROOT / "crates/price").rglob("*") if path.is_file() and MADE not in path.parents]
        self.assertIn(ROOT / "crates/price/src/lib.rt", files)
        for path in files:
            with self.subTest(path.name):
                self.assertIsNone(NAMED.search(path.read_text(encoding="utf-8")))

    def test_price_depends_on_no_judge_of_bytes(self) -> None:
        listed = re.search(r"^price: (.*)$", (ROOT / "crates.txt").read_text(encoding="utf-8"), re.MULTILINE)
        assert listed
        self.assertFalse(set(listed[1].split()) & set(JUDGES.split("|")))

    def test_others_are_found(self) -> None:
        for text in ("let row = chunk::row(s);", "use fields::read_date;", "use Rattle.lines.proofs.Puts", "use search;"):
            self.assertTrue(NAMED.search(text), text)
        self.assertIsNone(NAMED.search("use Rattle.chunk_laws.proofs.File; the lines of a chunk"))


if __name__ == "__main__":
    unittest.main()
