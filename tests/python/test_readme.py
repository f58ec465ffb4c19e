"""README.md: its lines for the command, Python and C do what they say, in a checkout where the libraries are built."""
from __future__ import annotations

import os
import re
import shlex
import shutil
import subprocess
import sys
import tempfile
import unittest
from pathlib import Path

from support import LIBRARY, REPOSITORY

README = (REPOSITORY / "README.md").read_text(encoding="utf-8")
MOST_LINES = 125
AROUND = """#include <stdio.h>
{include}
static uint8_t file[4096];

int main(int count, char **names)
{{
    FILE *opened = count == 2 ? fopen(names[1], "rb") : NULL;
    if (opened == NULL)
        return 1;
    size_t length = fread(file, 1, sizeof file, opened);
    fclose(opened);
{lines}
    return 0;
}}
"""


def code(heading: str) -> list[str]:
    """The indented lines of a section, without their indent."""
    section = README.split(f"\n## {heading}\n")[1].split("\n## ")[0]
    return [line[4:] for line in section.splitlines() if line.startswith("    ")]


class Lines(unittest.TestCase):
    def setUp(self) -> None:
        folder = tempfile.TemporaryDirectory(prefix="readme ")
        self.addCleanup(folder.cleanup)
        self.folder = Path(folder.name)

    def run_in(self, folder: Path, *words: str, beside: str = "", **more: str) -> str:
        """What a command prints; on standard error it must print what stands beside."""
        ended = subprocess.run(words, cwd=folder, env=os.environ | more, capture_output=True, text=True, timeout=60)
        self.assertEqual((ended.returncode, ended.stderr), (0, beside), words)
        return ended.stdout

    def test_it_is_short(self) -> None:
        self.assertLessEqual(len(README.splitlines()), MOST_LINES)

    def test_the_command(self) -> None:
        (self.folder / "bin").mkdir()
        (self.folder / "bin/ads").symlink_to(REPOSITORY / "python/bin/ads")
        shutil.copy(REPOSITORY / "samples/survey.ads", self.folder)
        path = f"{self.folder}/bin:{os.environ['PATH']}"
        parts = "header 367\nchunks 6847\nunread 0\n"
        said = [self.run_in(self.folder, "sh", "-c", line, beside=parts if line.startswith("ads price") else "",
                            PATH=path) for line in code("The command")]
        self.assertEqual(len(said), 12)
        self.assertIn("4 chunks; clean: all 7,214 bytes read", said[0])
        self.assertEqual(said[1], "survey.ads: clean, 4 chunks, all sums good\n")
        self.assertEqual((self.folder / "depths.txt").read_text(), "12.5\n12.7\n")
        self.assertEqual((self.folder / "deps.tsv").read_bytes().count(b"\nADS relation\t"), 4)
        self.assertRegex(said[4], r"^3  #.*\n(  .*\n){4}2 rows; dependencies that name no row: 1\n$")
        self.assertRegex(said[7], r"^0 36 107\n(.*\n){3}total \d+\n$")
        self.assertRegex(said[10], r"^row 0 appended: 319 to 1,223, serial #")
        self.assertEqual(said[11], "new.ads: clean, 1 chunk; nothing is to be cut\n")

    def test_the_blocks(self) -> None:
        (self.folder / "bin").mkdir()
        (self.folder / "bin/ads").symlink_to(REPOSITORY / "python/bin/ads")
        shutil.copy(REPOSITORY / "samples/survey.ads", self.folder)
        path = f"{self.folder}/bin:{os.environ['PATH']}"
        said = [self.run_in(self.folder, "sh", "-c", line, PATH=path) for line in code("Blocks")]
        self.assertEqual(said, ["survey.ads: 7,214 bytes packed into 15 blocks of 512; carry the length beside the "
                                "copy: 7214\n", "survey.blocks: 15 blocks of 512 unpacked into 7,214 bytes\n"])
        self.assertEqual((self.folder / "copy.ads").read_bytes(), (self.folder / "survey.ads").read_bytes())

    def test_the_price(self) -> None:
        """The example of three lines."""
        example = re.search(r"`(ads price samples/[^`]+)` prints `([^`]+)`, `([^`]+)` and `([^`]+)`",
                            " ".join(README.split()))
        self.assertIsNotNone(example)
        command, *lines = example.groups()
        words = [sys.executable, "-B", str(REPOSITORY / "python/bin/ads"), *shlex.split(command)[1:]]
        parts = "header 319\nchunks 2066\nunread 0\n"
        self.assertEqual(self.run_in(REPOSITORY, *words, beside=parts).splitlines(), lines)

    def test_python(self) -> None:
        program = "\n".join(code("Python"))
        said = self.run_in(REPOSITORY, sys.executable, "-B", "-c", program, PYTHONPATH=str(REPOSITORY / "python"))
        self.assertEqual(said.splitlines()[0], "True 7214 0 4")
        self.assertEqual(said.splitlines()[-1], repr(b"12.5\n12.7\n"))

    def test_c(self) -> None:
        lines = code("C")
        include = lines.pop(0)
        built = next(line for line in lines if line.startswith("gcc "))
        body = "\n".join("    " + line for line in lines[:lines.index(built)])
        (self.folder / "t.c").write_text(AROUND.format(include=include, lines=body))
        self.run_in(self.folder, "gcc", "-Wall", "-Wextra", "-Werror", f"-I{REPOSITORY}/include", "t.c", str(LIBRARY),
                    "-o", "t")
        said = self.run_in(self.folder, "./t", str(REPOSITORY / "samples/damaged-04-cut.ads"),
                           LD_LIBRARY_PATH=str(LIBRARY.parent))
        self.assertEqual(said, "319 3 good\nstops at 1178 with 4 (the bytes end too soon)\n")
        example = built.replace("target/example", shlex.quote(str(self.folder / "example")))
        self.assertIn("1 rows, clean", self.run_in(REPOSITORY, "sh", "-c", example))


if __name__ == "__main__":
    unittest.main()
