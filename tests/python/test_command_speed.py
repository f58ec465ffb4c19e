"""How long `ads list` takes: 100,000 rows as TSV, and 64 MiB in few chunks beside the library's own reading.

The figures are printed; the bounds are wide, for a machine that does other work meanwhile.
"""
import subprocess
import sys
import time
import unittest
from collections.abc import Callable
from pathlib import Path

from running import CommandTest, environment
from large_files import empty_chunks, long_chunks

import ads_metafile

ROUNDS = 5
MARGIN = 3


def best(call: Callable[[], object]) -> float:
    """The shortest time of some rounds."""
    times = []
    for _ in range(ROUNDS):
        begin = time.perf_counter()
        call()
        times.append(time.perf_counter() - begin)
    return min(times)


class Speed(CommandTest):
    def listing(self, *options: str) -> float:
        return best(lambda: self.expect(0, "list", *options, "a.ads", stdout=subprocess.DEVNULL))

    def start_of_interpreter(self) -> float:
        return best(lambda: subprocess.run([sys.executable, "-c", "pass"], env=environment(), check=True))

    def test_many_rows(self) -> None:
        self.path("a.ads", empty_chunks(100_000))
        took = self.listing("--format=tsv")
        print(f"100,000 rows as TSV: {took:.2f} s, at most 1", file=sys.stderr)
        self.assertLess(took, MARGIN * 1)

    def test_few_chunks(self) -> None:
        path = self.path("a.ads", long_chunks(8, 8 << 20))
        data = path.read_bytes()
        reading = best(lambda: ads_metafile.read(data))
        one_read = best(lambda: read_once(path))
        start = self.start_of_interpreter()
        took = self.listing() - start
        ratio = took / (reading + one_read)
        print(f"64 MiB in 8 chunks: {1000 * took:.0f} ms beside the interpreter's {1000 * start:.0f}; reading "
              f"{1000 * reading:.1f} and one read of the file {1000 * one_read:.1f}: ratio {ratio:.2f}, at most 2",
              file=sys.stderr)
        self.assertLess(ratio, MARGIN * 2)


def read_once(path: Path) -> None:
    with open(path, "rb", buffering=0) as file:
        file.read()


if __name__ == "__main__":
    unittest.main()
