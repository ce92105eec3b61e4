"""The command cg-explore: a page on which boards are drawn, valued and played.

    cg-explore 'Domineering("....|....")'
"""
from __future__ import annotations

import argparse
import logging
import signal
import socket
import sys
import webbrowser
from typing import Optional, Sequence

from cgcalc.explore.access import HOST, Access, listening, make_server, names_of
from cgcalc.explore.asking import Desk
from cgcalc.explore.kept import Limits
from cgcalc.program import CgError, find_program
from cgcalc.tool import BAD_USE, STOPPED, CommandLine, bytes_of, tell

COMMAND = "cg-explore"
PORT = 8642
NEEDED = (
    "cg-explore needs the packages flask and waitress: on Debian python3-flask and"
    " python3-waitress, elsewhere pip install 'cgcalc[explore]'"
)


def main(words: Optional[Sequence[str]] = None) -> int:
    """Runs the command, and gives its status."""
    options = read_words(words)
    try:
        return serve(options)
    except ImportError as error:
        if (error.name or "").partition(".")[0] not in ("flask", "waitress", "werkzeug"):
            raise
        tell(COMMAND, NEEDED)
        return BAD_USE
    except CgError as bad:
        tell(COMMAND, str(bad))
        return BAD_USE
    except OSError as error:
        tell(COMMAND, f"can't listen on {options.host}, port {options.port}: {error.strerror}")
        return BAD_USE
    except KeyboardInterrupt:
        return STOPPED


def read_words(words: Optional[Sequence[str]]) -> argparse.Namespace:
    """The options that the words of the command line give."""
    reader = CommandLine(
        prog=COMMAND,
        description="Shows boards in the browser: draw one, see its value, make moves, play.",
        epilog="It prints the address of its page, and runs until Ctrl-C ends it.",
    )
    add = reader.add_argument
    add("parts", nargs="*", metavar="position", help="a board or another game; several are added")
    add("--port", type=port_of, default=PORT, metavar="N", help=f"the port ({PORT}; 0: any)")
    far = f"the address to listen on ({HOST}: this machine alone)"
    add("--host", default=HOST, metavar="ADDRESS", help=far)
    add("--no-browser", action="store_true", help="don't open the page, only print its address")
    reader.add_limits()
    seconds = "how long an answer may take, in seconds (20)"
    add("--timeout", type=float, default=20.0, metavar="S", help=seconds)
    size = "how much memory a run may take, as 500M or 2G (1G)"
    add("--memory", type=bytes_of, default=1 << 30, metavar="SIZE", help=size)
    reader.add_version()
    return reader.parse_args(words)


def serve(options: argparse.Namespace) -> int:
    """Serves the page until it is told to end."""
    from cgcalc.explore.server import Site  # which needs flask

    logging.getLogger("waitress").setLevel(logging.ERROR)
    limits = Limits(options.share, options.positions, options.timeout, options.memory)
    desk = Desk(limits, find_program())
    desk.check()
    bound = socket_of(options.host, options.port)
    access = Access(names_of(options.host), bound.getsockname()[1])
    server = make_server(Site(desk, access).app, bound)
    address = access.address(options.host, options.parts)
    print(f"{COMMAND}: {address}", flush=True)
    if not options.no_browser:
        webbrowser.open(address)
    ended = end_by_signals(desk)
    try:
        server.run()
    finally:
        desk.close()
        server.close()
    return 128 + ended[0] if ended else 0


def end_by_signals(desk: Desk) -> list[int]:
    """Lets signals that ask the command to end stop all questions first; the signal is noted."""
    numbers = (signal.SIGINT, signal.SIGTERM, signal.SIGHUP)
    ended: list[int] = []

    def end(number: int, frame: object) -> None:
        for further in numbers:
            signal.signal(further, signal.SIG_IGN)
        ended.append(number)
        desk.close()
        raise SystemExit

    for number in numbers:
        signal.signal(number, end)
    return ended


def socket_of(host: str, port: int) -> socket.socket:
    """A socket that is bound; where the usual port is taken, to any other."""
    try:
        return listening(host, port)
    except OSError:
        if port != PORT:
            raise
        return listening(host, 0)


def port_of(text: str) -> int:
    """The port that a word tells."""
    if not text.isdecimal() or int(text) >= 1 << 16:
        raise argparse.ArgumentTypeError(f"a port is a number from 0 to 65535, not {text!r}")
    return int(text)


if __name__ == "__main__":
    sys.exit(main())
