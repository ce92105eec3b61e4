"""Refusals of lines, and what they say in a sentence."""
from __future__ import annotations

from dataclasses import dataclass
from typing import Optional

KINDS = {
    "syntax": "no line of the notation goes on like this at column {column}",
    "name": "no earlier line defines the name at column {column}",
    "parts": "written out without names, the line has more than 4,096 parts, or one of its"
    " expressions more than 1,024 levels",
    "positions": "it needs a list of more positions than the limit allows",
    "range": "a number is out of range, or its denominator isn't a power of two",
    "depth": "a form is deeper than 512",
    "full": "it would take more than its share of the table",
    "long": "the proof has more than 65,536 bytes",
}
CAUSES = {
    "rules": "the rules of the strip go wrong at place {place}",
    "symbol": "the board has a symbol at place {place} that the game hasn't",
    "empty": "the board has no cell",
    "ragged": "the row that starts at place {place} of the board isn't as long as the first",
    "large": "the board is too large: a cell, vertex or edge too many stands at place {place}",
    "lowering": "rule {place} of the strip doesn't lower the weights everywhere",
    "edges": "the text of the edges goes wrong at place {place}",
    "octal": "the code of the octal game goes wrong at place {place}",
    "heap": "the heap has more than 1,000 tokens",
}


@dataclass(frozen=True)
class Refusal:
    """Why a line got no answer.

    `column` is there where the kind is syntax or name, `cause` and `place` where it is board. A
    column counts the bytes of the line from 1, a place those of the board's text; for the cause
    lowering the place is the number of the rule.

    >>> refusal = Refusal.read("! board ragged 4")
    >>> refusal.kind, refusal.cause, refusal.place
    ('board', 'ragged', 4)
    >>> refusal.explain()
    "the row that starts at place 4 of the board isn't as long as the first"
    """

    kind: str
    column: Optional[int] = None
    cause: Optional[str] = None
    place: Optional[int] = None

    @property
    def refused(self) -> bool:
        """Whether the line was refused: here always."""
        return True

    @classmethod
    def read(cls, text: str) -> Refusal:
        """The refusal that the program writes as this text."""
        kind, *rest = text[2:].split(" ")
        if kind in ("syntax", "name"):
            (column,) = rest
            return cls(kind, column=int(column))
        if kind == "board":
            cause, place = rest
            return cls(kind, cause=_known(cause, CAUSES), place=int(place))
        if rest:
            raise ValueError(text)
        return cls(_known(kind, KINDS))

    def explain(self, line: Optional[str] = None) -> str:
        """What the refusal says, in a sentence; with the line also that it ends too early.

        >>> Refusal("syntax", column=10).explain("value {1|")
        'the line ends too early'
        >>> Refusal("full").explain()
        'it would take more than its share of the table'
        """
        if (
            self.kind == "syntax"
            and line is not None
            and self.column == len(line.encode(errors="replace")) + 1
        ):
            return "the line ends too early"
        sentence = KINDS[self.kind] if self.cause is None else CAUSES[self.cause]
        return sentence.format(column=self.column, place=self.place)

    def __str__(self) -> str:
        details = [self.column, self.cause, self.place]
        return " ".join(
            ["!", self.kind, *(str(detail) for detail in details if detail is not None)]
        )


def _known(word: str, words: dict[str, str]) -> str:
    if word not in words:
        raise ValueError(word)
    return word
