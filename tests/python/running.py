"""The command `ads` as a process, and folders to run it in, with spaces and other letters in their names.

It rests on the shared library as the package finds it, and on tests/metafile_bytes.py for files.
"""
from __future__ import annotations

import os
import shutil
import signal
import subprocess
import sys
import tempfile
import time
import unittest
from pathlib import Path
from typing import Any

ROOT = Path(__file__).resolve().parents[2]
sys.path[:0] = [str(ROOT / "python"), str(ROOT / "tests")]
os.umask(0o022)

import ads_metafile  # noqa: E402
from metafile_bytes import head, header, plain, serial  # noqa: E402

ADS = [sys.executable, str(ROOT / "python" / "bin" / "ads")]
FOLDER = "Meßfahrt 7 на севере"
SERIAL = serial("00900")
PATIENCE = 30
SIGNALS = (signal.SIGINT, signal.SIGTERM, signal.SIGHUP)

# Root may read and write everything: here the rights are given up once all modules are loaded.
UNPRIVILEGED = """
import json, os, sys, tomllib
sys.path.insert(0, sys.argv.pop(1))
import ads_metafile
from ads_metafile.command import entry, parser
ads_metafile.read(b"")
parser.make_parser()
if os.getuid() == 0:
    os.setgroups([])
    os.setegid(65534)
    os.seteuid(65534)
entry()
"""


def heard() -> None:
    """Signals have their effect, also where the tests run in the background or under nohup, which ignore some."""
    for number in SIGNALS:
        signal.signal(number, signal.SIG_DFL)


def environment(**changed: str) -> dict[str, str]:
    """The environment of the command: compiled modules are kept in target, so that each start costs little."""
    dropped = ("PYTHONDONTWRITEBYTECODE", "PYTHONUNBUFFERED", "ADS_DEBUG", "LC_ALL", "LANG")
    kept = {name: value for name, value in os.environ.items() if name not in dropped}
    return kept | {"PYTHONPYCACHEPREFIX": str(ROOT / "target" / "pycache"), "LC_ALL": "C.UTF-8"} | changed


class CommandTest(unittest.TestCase):
    """A test with an empty folder, in which the command runs."""

    def setUp(self) -> None:
        above = Path(os.path.realpath(tempfile.mkdtemp(prefix="ads-")))
        self.addCleanup(shutil.rmtree, above)
        above.chmod(0o755)
        self.folder = above / FOLDER
        self.folder.mkdir()
        self.addCleanup(self.folder.chmod, 0o755)

    def path(self, name: str, data: bytes | None = None) -> Path:
        """A path in the folder; with data the file is written."""
        path = self.folder / name
        if data is not None:
            path.write_bytes(data)
        return path

    def start(self, *arguments: str | bytes | Path, **more: Any) -> subprocess.Popen[bytes]:
        """Starts the command; with `unprivileged` as a user who isn't root."""
        command = [sys.executable, "-c", UNPRIVILEGED, str(ROOT / "python")] if more.pop("unprivileged", False) else ADS
        given = {"cwd": self.folder, "env": environment(), "stdin": subprocess.DEVNULL, "stdout": subprocess.PIPE,
                 "stderr": subprocess.PIPE, "preexec_fn": heard} | more
        return subprocess.Popen([*command, *arguments], **given)

    def run_ads(self, *arguments: str | bytes | Path, given: bytes | None = None, **more: Any) -> Ended:
        """Runs the command to its end."""
        if given is not None:
            more["stdin"] = subprocess.PIPE
        with self.start(*arguments, **more) as process:
            output, errors = process.communicate(given, timeout=PATIENCE)
        return Ended(process.returncode, output or b"", (errors or b"").decode("utf-8"))

    def expect(self, status: int, *arguments: str | bytes | Path, **more: Any) -> Ended:
        """Runs the command, which has to end with this status; a message on standard error is one line."""
        ended = self.run_ads(*arguments, **more)
        self.assertEqual(ended.status, status, ended)
        self.assertEqual(ended.errors.count("\n"), 0 if not ended.errors else 1, ended)
        self.assertTrue(not ended.errors or ended.errors.startswith("ads: "), ended)
        return ended


class Ended:
    """How a process ended: its status, what it printed, and its messages."""

    def __init__(self, status: int, output: bytes, errors: str) -> None:
        self.status = status
        self.bytes = output
        self.errors = errors

    @property
    def output(self) -> str:
        return self.bytes.decode("utf-8")

    @property
    def lines(self) -> list[str]:
        return self.output.splitlines()

    def __repr__(self) -> str:
        return f"status {self.status}\n{self.bytes.decode('utf-8', 'replace')}{self.errors}"


def chunk_options(number: str = SERIAL, **changed: str) -> list[str]:
    """Options of append for every field."""
    given = {"sub-format": "ADS\\DATA\\TEST", "generic-type": "TXT", "synch-type": "GEN", "time-standard": "UTC",
             "time-offset": "+00008.035", "event-synch": "NUL", "serial": number, "recorded": "20240229",
             "recorder": "RECORDER", "written": "20240301", "writer": "DESK"}
    given |= {key.replace("_", "-"): value for key, value in changed.items()}
    return [f"--{key}={value}" for key, value in given.items()]


def header_options(**changed: str) -> list[str]:
    """Options of begin for every field but the mark."""
    given = {"strategy": "LLC", "serial": SERIAL, "recorded": "20240229", "recorder": "RECORDER",
             "written": "20240301", "writer": "DESK"}
    given |= {key.replace("_", "-"): value for key, value in changed.items()}
    return [f"--{key}={value}" for key, value in given.items()]


def chunks(*contents: bytes, strategy: str = "LLC", mark: bytes = b"") -> bytes:
    """A file with a chunk for each of the contents."""
    return header(strategy, mark) + b"".join(
        plain(mark, serial("%05d" % (42 + row)), data, head()) for row, data in enumerate(contents))


def wait_until(true: Any, process: subprocess.Popen[bytes] | None = None) -> None:
    """Waits until the call answers true; an AssertionError where it doesn't in time or the process ends before."""
    deadline = time.monotonic() + PATIENCE
    while not true():
        if time.monotonic() > deadline or process is not None and process.poll() is not None:
            raise AssertionError("it didn't happen")
        time.sleep(0.002)


def has_open(process: subprocess.Popen[bytes], path: Path) -> bool:
    """Whether the process has this file open, as the path names it now."""
    folder, wanted = f"/proc/{process.pid}/fd", os.stat(path)
    try:
        return any(os.path.samestat(os.stat(f"{folder}/{number}"), wanted) for number in os.listdir(folder))
    except OSError:
        return False


def rows(data: bytes) -> list[tuple[Any, ...]]:
    """The table of a file, by the library."""
    return list(ads_metafile.read(data).records())
