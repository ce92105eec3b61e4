"""Answers the session at standard input, as docs/LANGUAGE.md says; see the package's first page."""
import os
import sys

sys.path[0] = os.path.dirname(os.path.dirname(os.path.abspath(__file__)))

from reference.deep import with_deep_stack  # pylint: disable=wrong-import-position
from reference.session import MOST_BYTES, run  # pylint: disable=wrong-import-position


class Unread(Exception):
    """Reading the input failed."""


def read():
    """The input, or as much of it as tells that it is too long, a letter for each byte."""
    try:
        return sys.stdin.buffer.read(MOST_BYTES + 1).decode("latin-1")
    except OSError as fault:
        raise Unread from fault


def main():
    """Writes what the session writes, and gives its status."""
    try:
        words = [os.fsencode(word).decode("utf-8", "surrogateescape") for word in sys.argv[1:]]
        output, status = run(words, read)
    except Unread:
        return 3
    try:
        with open(sys.stdout.fileno(), "wb", buffering=0, closefd=False) as written:
            rest = output.encode("latin-1")
            while rest:
                rest = rest[written.write(rest) :]
    except OSError:
        return 4
    return status


if __name__ == "__main__":
    sys.exit(with_deep_stack(main))
