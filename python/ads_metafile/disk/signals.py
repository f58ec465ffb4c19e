"""Signals held back while a file is written: they take effect behind it, or never where the process ends before."""
from __future__ import annotations

import signal
from collections.abc import Iterator
from contextlib import contextmanager

HELD = {signal.SIGINT, signal.SIGTERM, signal.SIGHUP}


def hold_signals() -> set[signal.Signals]:
    """Holds the three signals back from now on; answers what was held before. One that came earlier is raised here."""
    return signal.pthread_sigmask(signal.SIG_BLOCK, HELD)


@contextmanager
def signals_held() -> Iterator[None]:
    """Holds the three signals back for a while."""
    before = hold_signals()
    try:
        yield
    finally:
        signal.pthread_sigmask(signal.SIG_SETMASK, before)
