"""docs/numbers.tsv is the one list of numbers, names and words. Everything that repeats it is held equal to it here.

The same holds for the version, the sizes, the endings and the verdicts, which include/ads.h has.
"""
from __future__ import annotations

import re
import subprocess
import sys
import tempfile
import tomllib
import unittest
from enum import Enum
from pathlib import Path

ROOT = Path(__file__).resolve().parents[2]
sys.path.insert(0, str(ROOT / "python"))

Numbers = dict[int, tuple[str, str]]  # number: name, words

# the names of crates/metafile that differ
NAMES_OF_METAFILE = {
    "MINI_MARK": "MARK_MINI",
    "SHORT": "CUT",
    "KNOWN_SERIAL": "REPEATED",
    "OVER_LIMIT": "LIMIT",
    "ZERO_IN_MARK": "MARK_ZERO",
}


def text(path: str) -> str:
    return (ROOT / path).read_text(encoding="utf-8")


def listed() -> Numbers:
    """docs/numbers.tsv."""
    first, *lines = text("docs/numbers.tsv").splitlines()
    if first != "number\tname\twords":
        raise AssertionError(f"docs/numbers.tsv begins with {first!r}")
    rows = [line.split("\t") for line in lines]
    return {int(number): (name, words) for number, name, words in rows}


def refusals() -> Numbers:
    """All but 0."""
    return {number: row for number, row in listed().items() if number != 0}


def snake(name: str) -> str:
    """NoRow as NO_ROW."""
    return re.sub(r"(?<=[a-z])(?=[A-Z0-9])", "_", name).upper()


def enums() -> list[list[tuple[str, int]]]:
    """The enums of include/ads.h in order, names without ADS_: the numbers, the endings, the verdicts."""
    bodies = re.findall(r"^enum \{\n(.*?)^\};", text("include/ads.h"), re.MULTILINE | re.DOTALL)
    members = [re.findall(r"^    ADS_(\w+) = (\d+),? +/\*", body, re.MULTILINE) for body in bodies]
    return [[(name, int(value)) for name, value in each] for each in members]


class List(unittest.TestCase):
    def test_order(self) -> None:
        """No call gives 22, 25 and 26."""
        self.assertEqual(list(listed()), [*range(22), 23, 24] + [27, 28, 29])
        self.assertEqual(len({name for name, _ in listed().values()}), 24 + 3)

    def test_words_fit_into_a_message(self) -> None:
        for name, words in listed().values():
            with self.subTest(name):
                self.assertRegex(name, r"^[A-Z_]+(_\d+)?$")
                self.assertRegex(words, r"^[ !#-\[\]-~]+$", "printable, no quote, no backslash")
                self.assertEqual(words, words.strip(" ."))


class Header(unittest.TestCase):
    def test_enum(self) -> None:
        self.assertEqual(len(enums()), 3)
        self.assertEqual(enums()[0], [(name, number) for number, (name, _) in listed().items()])

    def test_words_and_version(self) -> None:
        """Two translation units, one of them without ads_words."""
        for compiler in (["gcc", "-std=c11"], ["g++", "-std=c++11", "-x", "c++"]):
            with self.subTest(compiler[0]), tempfile.TemporaryDirectory() as folder:
                sources = [str(ROOT / "tests/c" / name) for name in ("words.c", "layout.c")]
                subprocess.run([*compiler, "-Wall", "-Wextra", "-Wpedantic", "-Werror", f"-I{ROOT}/include",
                                *sources, "-o", f"{folder}/words"], check=True)
                printed = subprocess.run([f"{folder}/words"], check=True, capture_output=True, text=True).stdout
                version, *lines = printed.splitlines()
                words = {number: words for number, (_, words) in listed().items()}
                self.assertEqual(lines, [f"{number}\t{words.get(number, 'no such number')}" for number in range(256)])
                major, minor, patch = map(int, version.split("\t")[0].split("."))
                self.assertEqual(int(version.split("\t")[1]), major * 1_000_000 + minor * 1_000 + patch)


class Others(unittest.TestCase):
    maxDiff = None

    def test_rust(self) -> None:
        found = re.findall(r'^    (\w+) = (\d+), "(.*)";$', text("rust/src/refusal.rs"), re.MULTILINE)
        self.assertEqual({int(number): (snake(name), words) for name, number, words in found}, refusals())

    def test_python(self) -> None:
        from ads_metafile import _numbers

        self.assertEqual(_numbers.NAMES, {number: name for number, (name, _) in listed().items()})
        self.assertEqual(_numbers.WORDS, {number: words for number, (_, words) in listed().items()})
        for number, (name, words) in listed().items():
            self.assertEqual(getattr(_numbers, name), number)
            refused = _numbers.Refused(number)
            self.assertEqual((refused.number, refused.name, refused.words), (number, name, words))

    def test_readme(self) -> None:
        """Rows of a table that begin with a number; the words are the last cell."""
        found = re.findall(r"^\| *(\d+) *\|(?:.*\|)? *([^|]*?) *\|$", text("README.md"), re.MULTILINE)
        self.assertEqual({int(number): words.replace("`", "") for number, words in found},
                         {number: words for number, (_, words) in refusals().items()})

    def test_metafile(self) -> None:
        found = re.findall(r"^    (\w+) = (\d+),$", text("crates/metafile/src/refusal.rt"), re.MULTILINE)
        self.assertEqual([(int(number), NAMES_OF_METAFILE.get(snake(name), snake(name))) for name, number in found],
                         [(number, name) for number, (name, _) in refusals().items()])


class Words(unittest.TestCase):
    """Names and values in C, Rust and Python, words in Rust, Python and FORMAT."""

    def check(self, named: list[tuple[str, int]], python: type[Enum], rust: str, heading: str) -> None:
        self.assertEqual([(each.name, each.value) for each in python], named)
        found = re.findall(r"^    (\w+) = (\d+),$", text(rust), re.MULTILINE)
        self.assertEqual([(snake(name), int(value)) for name, value in found], named)
        said = re.findall(rf'^            {python.__name__}::(\w+) => "(.*)",$', text(rust), re.MULTILINE)
        self.assertEqual([(snake(name), words) for name, words in said], [(each.name, str(each)) for each in python])
        section = text("docs/FORMAT.md").split(f"\n## {heading}\n")[1].split("\n## ")[0]
        explained = re.findall(r"\*\*([a-z -]+)\*\* \((\d)\)", section)
        self.assertEqual(sorted((int(value), words) for words, value in explained),
                         [(each.value, str(each)) for each in python])

    def test_endings(self) -> None:
        """In the proved crate, too."""
        from ads_metafile import Ending

        endings = enums()[1]
        self.assertEqual(endings, [("COUNTED", 0), ("FOUND", 1), ("BY_MINI_CHUNKS", 2)])
        self.check(endings, Ending, "rust/src/answers.rs", "Reading")
        metafile = re.findall(r"^pub const (\w+): u8 = (\d+);$", text("crates/metafile/src/endings.rt"), re.MULTILINE)
        self.assertEqual([(name, int(value)) for name, value in metafile], endings)

    def test_verdicts(self) -> None:
        from ads_metafile import Verdict

        verdicts = enums()[2]
        self.assertEqual(verdicts, [("DECLARED", 1), ("UNDECLARED", 2), ("MALFORMED", 3)])
        self.check(verdicts, Verdict, "rust/src/relations.rs", "Relations")


class Sizes(unittest.TestCase):
    def sizes(self, path: str, pattern: str) -> dict[str, int]:
        """Names and values, which are written as 999, 10_240 or 1 << 30."""
        found = [(name, value.split("<<")) for name, value in re.findall(pattern, text(path), re.MULTILINE)]
        return {name: int(value[0]) << int(value[1] if value[1:] else 0) for name, value in found}

    def test_equal(self) -> None:
        from ads_metafile import MOST_BYTES, _blocks, most_rows

        c = self.sizes("include/ads.h", r"^#define ADS_(\w+) \(?([\d <]+)\)? +/\*")
        self.assertEqual(c.pop("SERIAL_BYTES"), 38)
        self.assertEqual(c, self.sizes("rust/src/sizes.rs", r"^pub const (\w+): usize = ([\d_ <]+);"))
        metafile = self.sizes("crates/metafile/src/limits.rt", r"^pub const (LIMIT): usize = (\d+);")
        self.assertEqual({c["MOST_BYTES"], metafile["LIMIT"], MOST_BYTES}, {2**30})
        self.assertEqual([most_rows(length) for length in (0, 855, 856)], [1, 1, 2])
        self.assertEqual((c["BLOCK_BYTES"], c["BLOCK_DATA"]), (_blocks.BLOCK_BYTES, _blocks.BLOCK_DATA))


class Version(unittest.TestCase):
    def test_equal(self) -> None:
        import ads_metafile

        found = re.search(r'^#define ADS_VERSION "(.*)"$', text("include/ads.h"), re.MULTILINE)
        self.assertIsNotNone(found)
        version = found[1]
        self.assertEqual(ads_metafile.__version__, version)
        for path, table in (("rust/Cargo.toml", "package"), ("python/pyproject.toml", "project")):
            with self.subTest(path):
                self.assertEqual(tomllib.loads(text(path))[table]["version"], version)


if __name__ == "__main__":
    unittest.main()
