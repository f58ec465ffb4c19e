"""The command `ads` with the preloaded library of faults.c, which is compiled here, once for each process of tests."""
from __future__ import annotations

import functools
import os
import subprocess
import sys
from pathlib import Path
from typing import Any

HERE = Path(__file__).resolve().parent
sys.path.insert(0, str(HERE.parent / "python"))

from running import ROOT, CommandTest, Ended, environment  # noqa: E402

FLAGS = ["-shared", "-fPIC", "-O1", "-std=gnu11", "-Wall", "-Wextra", "-Werror"]


@functools.cache
def library() -> Path:
    """The compiled library."""
    built = ROOT / "target" / "faults" / "libfaults.so"
    built.parent.mkdir(parents=True, exist_ok=True)
    made = built.with_name(f"libfaults.{os.getpid()}.so")
    subprocess.run([os.environ.get("CC", "gcc"), *FLAGS, "-o", made, HERE / "faults.c"], check=True)
    os.replace(made, built)
    return built


class FaultTest(CommandTest):
    """A test whose command meets faults in its folder. Files outside of the folder are not touched by them."""

    def faulty(self, faults: str, *arguments: str | Path, **more: Any) -> Ended:
        """Runs the command with these faults, on absolute paths. Killed, its status is -9 and it says nothing."""
        log = self.folder.parent / "log"
        log.unlink(missing_ok=True)
        env = environment(LD_PRELOAD=str(library()), ADS_FAULT_FOLDER=str(self.folder), ADS_FAULTS=faults,
                          ADS_FAULT_LOG=str(log))
        ended = self.run_ads(*arguments, env=env, **more)
        self.calls = log.read_text().split() if log.exists() else []
        if ended.status == -9:
            self.assertEqual((ended.bytes, ended.errors), (b"", ""))
        else:
            self.assertEqual(ended.errors.count("\n"), 1 if ended.status else 0, ended)
        return ended

    def names(self) -> list[str]:
        return sorted(path.name for path in self.folder.iterdir())
