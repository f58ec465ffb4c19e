"""The command `ads`, over the package and its disk part: one line for each message, and an exit status.

No traceback is shown; ADS_DEBUG=1 in the environment shows one. A signal ends the process by that signal, so that a
shell's loop ends too; from the first byte written to a metafile on signals are held back, and what was begun is done.
"""
from __future__ import annotations

import os
import signal
import sys
from argparse import Namespace
from collections.abc import Sequence
from typing import NoReturn

from .. import Refused
from ..disk import HELD, DiskError, hold_signals, words_of
from .output import DISK, USAGE, Closed, Declined, Earned, Usage, flush, prepare_streams, put_message, report


class Interrupted(BaseException):
    """A signal came that ends the command."""

    def __init__(self, number: int) -> None:
        super().__init__(number)
        self.number = number


def main(arguments: Sequence[str] | None = None) -> int:
    """Runs the command and answers its exit status."""
    from .parser import make_parser
    prepare_streams()
    earned = Earned()
    options = Namespace()
    try:
        make_parser().parse_args(arguments, options)
        options.run(options, earned)
        flush()
    except Closed:
        pass
    except (Refused, Declined, DiskError) as error:
        earned.add(report(error, first_file(options)))
    except Usage as error:
        put_message(f"{options.subcommand}: {error}")
        earned.add(USAGE)
    return earned.status


def first_file(options: Namespace) -> str:
    named = getattr(options, "file", "ads")
    return named if isinstance(named, str) else named[0]


def entry() -> NoReturn:
    """The process `ads`: ends with its status, or by the signal that it got."""
    for number in HELD:
        if signal.getsignal(number) in (signal.SIG_DFL, signal.default_int_handler):
            signal.signal(number, interrupt)
    try:
        status = main()
        hold_signals()
    except Interrupted as error:
        end_by(error.number)
    except Exception as error:
        status = unexpected(error)
    sys.exit(status)


def interrupt(number: int, frame: object) -> None:
    """Raises the signal, unless it is held back and came by way of another thread."""
    if number not in signal.pthread_sigmask(signal.SIG_BLOCK, ()):
        raise Interrupted(number)


def end_by(number: int) -> NoReturn:
    """Ends the process by the signal that it got; others are held back meanwhile."""
    hold_signals()
    put_message(f"ended by {signal.Signals(number).name}; no metafile was changed")
    signal.signal(number, signal.SIG_DFL)
    os.kill(os.getpid(), number)
    signal.pthread_sigmask(signal.SIG_UNBLOCK, {number})
    sys.exit(DISK)


def unexpected(error: Exception) -> int:
    """One line about an error that nothing else names, such as a library that isn't there."""
    if os.environ.get("ADS_DEBUG") == "1":
        import traceback
        traceback.print_exc()
    elif isinstance(error, ImportError):
        put_message(str(error))
    elif isinstance(error, MemoryError):
        put_message("there isn't enough memory")
    else:
        words = words_of(error) if isinstance(error, OSError) else str(error)
        put_message(f"unexpected {type(error).__name__}: {words}; ADS_DEBUG=1 shows where")
    return DISK
