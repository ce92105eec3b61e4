"""What the tools share: the words of their command lines, and where the built program is."""
import argparse
import os
import sys

sys.dont_write_bytecode = True
TOOLS = os.path.dirname(os.path.abspath(__file__))
ROOT = os.path.dirname(TOOLS)
BAD_USE = 2


class Words(argparse.ArgumentParser):
    """A reader of a tool's words; it refuses bad ones in one line, with status 2."""

    def __init__(self, about):
        name = os.path.basename(sys.argv[0])
        super().__init__(prog=name, description=about, allow_abbrev=False, formatter_class=argparse.RawDescriptionHelpFormatter)

    def error(self, message):
        self.exit(BAD_USE, f"{self.prog}: {message} (--help tells the words)\n")


def count(text):
    """A whole number from 1 on, as an argument."""
    if not text.isdecimal() or int(text) < 1:
        raise argparse.ArgumentTypeError(f"{text!r} is no whole number from 1 on")
    return int(text)


def minutes(text):
    """A number of minutes above 0, as an argument."""
    try:
        found = float(text)
    except ValueError:
        found = 0.0
    if not 0 < found < float("inf"):
        raise argparse.ArgumentTypeError(f"{text!r} is no number above 0")
    return found


PROGRAM = os.path.abspath(os.environ.get("CG") or os.path.join(ROOT, "crates", "cg", "out", "cg"))
"""The program that CG names, else the one that stands built."""


def refuse(message):
    """Ends the tool with one line and status 2."""
    print(f"{os.path.basename(sys.argv[0])}: {message}", file=sys.stderr)
    sys.exit(BAD_USE)


def need_program():
    """Ends the tool where the program isn't there; else gives its path."""
    if not (os.path.isfile(PROGRAM) and os.access(PROGRAM, os.X_OK)):
        refuse(f"{PROGRAM} isn't built")
    return PROGRAM
