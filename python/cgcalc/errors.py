"""The exceptions of wrong calls and of refused questions."""
from __future__ import annotations

from typing import Optional

from cgcalc.program import CgError
from cgcalc.refusals import Refusal

ADVICE = {
    "full": "give each question more by Session(share=..)",
    "positions": "allow longer lists by Session(positions=..), or cut the board where no move"
    " crosses the cut, and add the parts",
    "name": "define the name by Session.define, and ask that session",
    "parts": "write the value in place of the long expression",
    "long": "compare tells the order without a proof",
}
MOST_SHOWN = 76


class WrongCall(CgError, ValueError, TypeError):
    """A call that can't be answered as it stands; the message says what to do.

    >>> str(WrongCall("a board is a text, such as '..|..'"))
    "a board is a text, such as '..|..'"
    """


class Refused(CgError):
    """A question that the program refused.

    `kind` is the refusal's word, `place` the column of the line or the place in the board where
    there is one, and `sentence` what it says; `line` and `refusal` are the question and the reply.

    >>> refused = Refused("value {1,2}", Refusal("syntax", column=11))
    >>> refused.kind, refused.place
    ('syntax', 11)
    >>> print(refused)
    no line of the notation goes on like this at column 11 (! syntax 11)
        value {1,2}
                  ^
    """

    def __init__(self, line: str, refusal: Refusal) -> None:
        self.line = line
        self.refusal = refusal
        self.kind = refusal.kind
        self.place: Optional[int] = refusal.place if refusal.column is None else refusal.column
        self.sentence = refusal.explain(line)
        super().__init__(line, refusal)

    def __str__(self) -> str:
        advice = f"; {ADVICE[self.kind]}" if self.kind in ADVICE else ""
        return f"{self.sentence}{advice} ({self.refusal})\n{shown(self.line, self.refusal.column)}"


def shown(line: str, column: Optional[int]) -> str:
    """A line, cut where it is long, and below it a caret at a column where there is one.

    >>> print(shown("value " + "1 + " * 30, None))
        value 1 + 1 + 1 + 1 + 1 + 1 + 1 + 1 + 1 + 1 + 1 + 1 + 1 + 1 + 1 + 1 + 1 + 1..
    """
    written = "".join(letter if letter.isprintable() else "?" for letter in line)
    before = len(line.encode(errors="replace")[: (column or 1) - 1].decode(errors="replace"))
    start = max(0, before - MOST_SHOWN // 2) if len(written) > MOST_SHOWN else 0
    end = start + MOST_SHOWN
    head, tail = ".." if start else "", ".." if end < len(written) else ""
    text = f"    {head}{written[start:end].rstrip()}{tail}"
    return text if column is None else f"{text}\n    {' ' * (len(head) + before - start)}^"
