"""samples/: every file is what make.py makes, reads as README.md says, and `ads check` prints the line that is there;
the packed one is refused as it says.

The examples of docs/FORMAT.md that need the library are tried here too. It rests on the package, the command and the
shared library, which is found as the package finds it.
"""
import re
import subprocess
import sys
import tempfile
import unittest
from pathlib import Path
from typing import NamedTuple

ROOT = Path(__file__).resolve().parents[2]
SAMPLES = ROOT / "samples"
sys.dont_write_bytecode = True
sys.path[:0] = [str(ROOT / folder) for folder in ("python", "samples", "tests", "tests/python")]

import ads_metafile  # noqa: E402
import make  # noqa: E402
import listings  # noqa: E402
from support import begun, description  # noqa: E402

MOST_BYTES = 110_000


class Told(NamedTuple):
    """A line of samples/README.md."""
    name: str
    rows: int
    stop: int
    number: int
    said: str


def told() -> list[Told]:
    line = re.compile(r"^\| `([\w-]+\.ads)` \| [^|]+ \| (\d+) \| (\d+) \| (\d+) \| `([^`]+)` \|$", re.MULTILINE)
    found = line.findall((SAMPLES / "README.md").read_text(encoding="utf-8"))
    return [Told(name, int(rows), int(stop), int(number), said) for name, rows, stop, number, said in found]


def check(*names: str) -> subprocess.CompletedProcess[str]:
    command = [sys.executable, "-B", str(ROOT / "python" / "bin" / "ads"), "check", *names]
    return subprocess.run(command, cwd=SAMPLES, capture_output=True, text=True, timeout=60)


class Files(unittest.TestCase):
    def test_the_folder_has_what_make_makes(self) -> None:
        self.assertEqual({path.name: path.read_bytes() for path in SAMPLES.glob("*.ads")}, make.samples())

    def test_the_readme_names_every_file_once(self) -> None:
        self.assertEqual(sorted(line.name for line in told()), sorted(make.samples()))

    def test_every_number_of_a_fault_has_a_sample(self) -> None:
        self.assertEqual({line.number for line in told()}, set(range(10)))
        for line in told():
            named = re.match(r"damaged-(\d\d)-", line.name)
            self.assertEqual(int(named[1]) if named else 0, line.number, line)

    def test_the_folder_is_small(self) -> None:
        self.assertLess(sum(path.stat().st_size for path in SAMPLES.iterdir() if path.is_file()), MOST_BYTES)

    def test_the_listings_are_of_the_same_files(self) -> None:
        same = {"one-chunk.ads": "sample", "open-chunk.ads": "open", "multichunk.ads": "multi",
                "damaged-09-repeated.ads": "repeated", "no-bytes.ads": "no-bytes", "padded.ads": "padded",
                "damaged-09-other-check.ads": "other-check", "damaged-06-spaces.ads": "spaces-behind"}
        for sample, name in same.items():
            self.assertEqual((SAMPLES / sample).read_bytes(), listings.CASES[name][0], name)


class Readings(unittest.TestCase):
    def test_each_reads_as_told(self) -> None:
        for line in told():
            for mapped in (False, True):
                with ads_metafile.open(SAMPLES / line.name, mmap=mapped) as file:
                    self.assertEqual((len(file), file.stop, file.number), (line.rows, line.stop, line.number), line)
                    self.assertEqual(file.clean, line.said.startswith("clean, "), line)
                    self.assertEqual(file.clean, line.number == 0 and line.name != "no-bytes.ads", line)

    def test_three_sums_are_bad(self) -> None:
        bad = []
        for line in told():
            with ads_metafile.open(SAMPLES / line.name) as file:
                bad += [(line.name, "header")] if file.stop and not file.header_good else []
                bad += [(line.name, row.index) for row in file if not row.good]
        self.assertEqual(bad, [("bad-chunk-sum.ads", 0), ("bad-header-sum.ads", "header"),
                               ("damaged-04-stray-byte.ads", 4)])

    def test_a_power_failure_leaves_the_old_file_up_to_the_stop(self) -> None:
        failures = [line for line in told() if "power" in line.name]
        self.assertEqual(len(failures), 3)
        old = (SAMPLES / "one-chunk.ads").read_bytes()
        for line in failures:
            self.assertEqual((SAMPLES / line.name).read_bytes()[:line.stop], old, line)

    def test_the_survey_has_what_the_readme_says(self) -> None:
        with ads_metafile.open(SAMPLES / "survey.ads") as file:
            self.assertEqual((file.strategy, file.mark), ("NUL", make.MARK))
            self.assertEqual(file.parent(1, 0), (0, True))
            self.assertEqual([file.parent(3, each) for each in range(3)], [(0, True), (1, False), None])
            self.assertEqual([row.multichunk for row in file], [False, False, True, False])
            self.assertEqual([row.offset for row in file], [80_350_000_000, 0, 80_350_000_000, 0])
            self.assertEqual(bytes(file.contents(1)), b"line 7 begun\n")
            self.assertIn(make.MARK, bytes(file.contents(3)))
            gathered = {short_id: file.gather(2, short_id) for short_id in ("P2/91", "GYRO", "SPARE")}
            self.assertEqual(gathered, {"P2/91": b"12.5\n12.7\n", "GYRO": b"181.0\n181.1\n", "SPARE": b""})


class Check(unittest.TestCase):
    def test_it_says_what_the_readme_has(self) -> None:
        run = check(*(line.name for line in told()))
        self.assertEqual(run.stdout.splitlines(), [f"{line.name}: {line.said}" for line in told()])
        self.assertEqual((run.returncode, run.stderr), (1, ""))

    def test_status_of_each(self) -> None:
        good = [line.name for line in told() if line.said.endswith("all sums good")]
        self.assertEqual(check(*good).returncode, 0)
        for name in ("bad-chunk-sum.ads", "bad-header-sum.ads", "no-bytes.ads"):
            self.assertEqual(check(name).returncode, 1, name)


class Blocks(unittest.TestCase):
    """The packed file that is damaged."""

    def test_the_file(self) -> None:
        self.assertEqual({path.name: path.read_bytes() for path in SAMPLES.glob("*.blocks")}, make.in_blocks())
        file = (SAMPLES / "one-chunk.ads").read_bytes()
        self.assertEqual((ads_metafile.pack(file), ads_metafile.unpack(make.packed(file))), (make.packed(file), file))

    def test_it_is_refused_as_told(self) -> None:
        line = re.compile(r"^\| `([\w-]+\.blocks)` \| [^|]+ \| (\d+) \| (\d+) \| `([^`]+)` \|$", re.MULTILINE)
        found = line.findall((SAMPLES / "README.md").read_text(encoding="utf-8"))
        self.assertEqual([name for name, *_ in found], list(make.in_blocks()))
        for name, blocks, number, said in found:
            packed = (SAMPLES / name).read_bytes()
            self.assertEqual((len(packed), f"damaged-{number}-"), (512 * int(blocks), name[:11]))
            with self.assertRaises(ads_metafile.Refused) as refused:
                ads_metafile.unpack(packed)
            self.assertEqual(refused.exception.number, int(number))
            with tempfile.TemporaryDirectory() as folder:
                command = [sys.executable, "-B", str(ROOT / "python" / "bin" / "ads"), "unpack", name, f"{folder}/out"]
                run = subprocess.run(command, cwd=SAMPLES, capture_output=True, text=True, timeout=60)
                self.assertEqual((run.returncode, run.stdout, run.stderr), (1, "", f"ads: {name}: {said}\n"))
                self.assertEqual(list(Path(folder).iterdir()), [])


class FormatExamples(unittest.TestCase):
    """docs/FORMAT.md's examples of spaces in front, of offsets, of open data that hold a part of the mark, of
    ancestors, of a price statement, and of blocks."""

    def appended(self, strategy: str, mark: bytes, contents: bytes, is_open: bool, offset: str) -> int:
        """The offset in the row of a chunk that is appended to a file without chunks."""
        given = description(time_offset=offset)
        finished = ads_metafile.append(begun(strategy, mark), given, contents, open=is_open)
        return ads_metafile.read(finished.data)[0].offset

    def test_offsets(self) -> None:
        text = (ROOT / "docs" / "FORMAT.md").read_text(encoding="utf-8")
        examples = re.findall(r"^\| `([+-][0-9. ]{15})` \| (-?\d+|out of form) \|$", text, re.MULTILINE)
        self.assertGreaterEqual(len(examples), 10)
        for offset, value in examples:
            if value == "out of form":
                with self.assertRaises(ads_metafile.Refused, msg=offset) as refused:
                    self.appended("LLC", b"", b"", False, offset)
                self.assertEqual(refused.exception.number, ads_metafile.FORM)
            else:
                self.assertEqual(self.appended("LLC", b"", b"", False, offset), int(value), offset)

    def test_spaces_in_front(self) -> None:
        """As the mark length, and as the checksum of the file header."""
        text = (ROOT / "docs" / "FORMAT.md").read_text(encoding="utf-8")
        examples = re.findall(r"^\| `(.{3})` \| (\d+|out of form) \|$", text, re.MULTILINE)
        self.assertEqual(len(examples), 7)
        header = begun("LLC", b"MMMMMMM")
        for written, value in examples:
            field = written.encode()
            title = ads_metafile.read(header[:61] + field + header[64:])
            summed = ads_metafile.read(header[:322] + field + header[325:])
            if value == "out of form":
                self.assertEqual((title.number, summed.number), (ads_metafile.TITLE, ads_metafile.FORM), written)
            else:
                self.assertEqual((title.number, title.mark, summed.number), (0, b"M" * int(value), 0), written)

    def test_open_data_and_mark(self) -> None:
        self.assertEqual(self.appended("NUL", b"ABAB", b"QA", True, "+0000      0.000"), 0)
        with self.assertRaises(ads_metafile.Refused) as refused:
            self.appended("NUL", b"ABAB", b"QAB", True, "+0000      0.000")
        self.assertEqual(refused.exception.number, ads_metafile.OPEN)


    def test_ancestors(self) -> None:
        whole = (ROOT / "docs" / "FORMAT.md").read_text(encoding="utf-8")
        section = whole.split("\n## Ancestors\n")[1].split("\n## ")[0]
        table = re.findall(r"^\| (\d+) \| ([^|]+) \| ([\d, ]+|none) \| (\d+) \|$", section, re.MULTILINE)
        with ads_metafile.open(SAMPLES / "ancestors.ads") as file:
            self.assertEqual([int(row) for row, *_ in table], list(range(len(file))))
            for row, named, ancestors, missing in table:
                self.assertEqual(file.ancestors(int(row)),
                                 ([int(each) for each in re.findall(r"\d+", ancestors)], int(missing)))
                parents = [each.row for each in file.parents(int(row))]
                self.assertEqual([int(each) for each in re.findall(r"row (\d+)", named)],
                                 [each for each in parents if each is not None])
                self.assertEqual("missing" in named, None in parents)
        with ads_metafile.open(SAMPLES / "circle.ads") as file:
            self.assertEqual(file.ancestors(0).rows, [])
            for row in (1, 2, 3):
                self.assertRaises(ads_metafile.Refused, file.ancestors, row)

    def test_price_statement(self) -> None:
        whole = (ROOT / "docs" / "FORMAT.md").read_text(encoding="utf-8")
        section = whole.split("\n## The price statement\n")[1].split("\n## ")[0]
        text = "".join(line[4:] + "\n" for line in section.splitlines() if line.startswith("    "))
        parts = re.search(r"has (\d+) header bytes, (\d+) chunk bytes and (\d+) unread byte", " ".join(section.split()))
        self.assertIsNotNone(parts)
        with ads_metafile.open(SAMPLES / "damaged-04-stray-byte.ads") as file:
            self.assertEqual(file.price(100, 7), (text, *map(int, parts.groups())))

    def test_blocks(self) -> None:
        whole = (ROOT / "docs" / "FORMAT.md").read_text(encoding="utf-8")
        section = " ".join(whole.split("\n## Blocks\n")[1].split("\n## ")[0].split())
        example = re.search(r"505 bytes of 255 pack to ([^.]+)\.", section)
        self.assertIsNotNone(example)
        parts = re.findall(r"(?:(\d+) × )?`([0-9A-F ]+)`", example[1])
        made = b"".join(bytes.fromhex(digits) * int(times or 1) for times, digits in parts)
        self.assertEqual((ads_metafile.pack(b"\xff" * 505), ads_metafile.unpack(made)), (made, b"\xff" * 505))


if __name__ == "__main__":
    unittest.main()
