"""What goes to the program, and what comes back: the bytes of sessions, and the cut output."""
from __future__ import annotations

import re
from typing import Sequence

from cgcalc.errors import WrongCall
from cgcalc.limits import MOST_CELLS
from cgcalc.program import CgError

SESSION_FORMAT = "cg 2"
"""The line that begins a session with names."""
BLANKS = " \t\r"
NO_BYTE = re.compile("[\ud800-\udc7f\udd00-\udfff]")
"""Halves of letters that stand for no byte either."""


def table_of(share: int, lines: int) -> int:
    """The cells of which each line has the share, an odd number where it can be, for speed."""
    cells = share * lines
    if cells > MOST_CELLS:
        raise WrongCall(
            f"{lines} lines, a question and the definitions that it needs, have a share of"
            f" {share} only in a table of {cells} cells, and {MOST_CELLS} are the most: give a"
            " smaller share"
        )
    return cells + 1 if lines > 1 and cells % 2 == 0 and cells < MOST_CELLS else cells


def encoded(line: str) -> bytes:
    """The bytes of a line; half a letter becomes a byte that no text has.

    >>> encoded("value ^ \\ud800")
    b'value ^ \\xff'
    """
    return NO_BYTE.sub("\udcff", line).encode(errors="surrogateescape")


def session_bytes(lines: Sequence[str]) -> bytes:
    """The bytes of a session with names.

    >>> session_bytes(["value ^"])
    b'cg 2\\nvalue ^\\n'
    """
    return b"".join(encoded(line) + b"\n" for line in (SESSION_FORMAT, *lines))


def cut_output(written: bytes, lines: int, told: str = "") -> list[str]:
    """The replies in what the program wrote, one for each line behind the first.

    Where it wrote others the error has what it told on standard error.

    >>> cut_output(b"2: 1\\n3: ! full\\n", 2)
    ['1', '! full']
    """
    cut = [line.partition(": ") for line in written.decode(errors="replace").split("\n")]
    numbers = [number for number, _, _ in cut]
    if numbers != [*(str(number) for number in range(2, lines + 2)), ""]:
        why = f" ({told})" if told else ""
        raise CgError(f"the program wrote what are no answers to {lines} lines{why}: is it cg?")
    return [text for _, _, text in cut[:-1]]
