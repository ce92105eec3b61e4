"""What the commands share: words of the command line, messages, signals, output."""
from __future__ import annotations

import argparse
import os
import signal
import sys
from typing import Any, NoReturn

from cgcalc.errors import WrongCall
from cgcalc.limits import POSITIONS, SHARE
from cgcalc.version import version_text

REFUSED = 1
BAD_USE = 2
WRITE_FAILED = 4
STOPPED = 130
PIPE_CLOSED = 141
UNITS = {"": 1, "K": 1 << 10, "M": 1 << 20, "G": 1 << 30}


class BadUse(WrongCall):
    """What is wrong with how a command was called, in one line."""


class CommandLine(argparse.ArgumentParser):
    """The words of a command. What is wrong is told in one line; no front stands for an option."""

    def __init__(self, **given: Any) -> None:
        super().__init__(allow_abbrev=False, **given)

    def error(self, message: str) -> NoReturn:
        tell(self.prog, f"{message} ({self.prog} --help tells the words)")
        sys.exit(BAD_USE)

    def add_version(self) -> None:
        """Adds the option that tells the version."""
        told = "tells the version, which program is asked, and whether it is a proved one"
        self.add_argument("--version", action=TellVersion, nargs=0, help=told)

    def add_limits(self) -> None:
        """Adds the options that say how much a question may take."""
        cells = f"cells of the table for each line ({SHARE})"
        items = f"the most items of one list ({POSITIONS})"
        self.add_argument("--share", type=int, default=SHARE, metavar="N", help=cells)
        self.add_argument("--positions", type=int, default=POSITIONS, metavar="P", help=items)

    def add_runs(self) -> None:
        """Adds the options that say how much a run may take."""
        seconds = "how long a question may take, in seconds"
        size = "how much memory a run may take, as 500M or 2G"
        self.add_argument("--timeout", type=float, metavar="S", help=seconds)
        self.add_argument("--memory", type=bytes_of, metavar="SIZE", help=size)
        own = "look replies up in a file and keep them there (~/.cache/cgcalc/replies.sqlite)"
        named = "the same with a file of another name"
        self.add_argument("--cache", action="store_const", const=True, help=own)
        self.add_argument("--cache-file", dest="cache", metavar="FILE", help=named)


class TellVersion(argparse.Action):
    """The option `--version`."""

    def __call__(self, reader: argparse.ArgumentParser, *_: object) -> NoReturn:
        print(version_text(reader.prog))
        raise SystemExit(0)


def bytes_of(text: str) -> int:
    """The bytes that a size such as 500M tells.

    >>> bytes_of("2G"), bytes_of("4096")
    (2147483648, 4096)
    """
    number, unit = (text, "") if text.isdecimal() else (text[:-1], text[-1:].upper())
    if not number.isdecimal() or unit not in UNITS:
        raise argparse.ArgumentTypeError(f"a size is a number of bytes, or as 500M, not {text!r}")
    return int(number) * UNITS[unit]


def tell(command: str, message: str) -> None:
    """Writes a message of a command to standard error."""
    print(f"{command}: {message}", file=sys.stderr, flush=True)


def end_by_signals() -> None:
    """Lets the first signal that asks a command to end raise SystemExit, so that it tidies up."""
    numbers = (signal.SIGTERM, signal.SIGHUP)

    def end(number: int, frame: object) -> None:
        for further in numbers:
            signal.signal(further, signal.SIG_IGN)
        raise SystemExit(128 + number)

    for number in numbers:
        signal.signal(number, end)


def write_output(text: str) -> None:
    """Writes to standard output at once. Where that fails, nothing more is written to it."""
    try:
        sys.stdout.buffer.write(text.encode(errors="surrogateescape"))
        sys.stdout.buffer.flush()
    except OSError:
        os.dup2(os.open(os.devnull, os.O_WRONLY), sys.stdout.fileno())
        raise


def status_of(failed: int) -> int:
    """The status of a command whose run of the program ended with this one.

    >>> status_of(5), status_of(-9)
    (5, 137)
    """
    return 128 - failed if failed < 0 else max(failed, BAD_USE)
