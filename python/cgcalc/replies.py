"""Replies to lines: one small class for each question, and `Refusal` for a refused line.

`str` of a reply is the program's text, and numbers are fractions.
"""
from __future__ import annotations

import re
from dataclasses import dataclass, field
from fractions import Fraction
from typing import Callable, ClassVar, Iterator, Optional, Union

from cgcalc.lines import BLANKS
from cgcalc.program import ProgramFailed
from cgcalc.refusals import Refusal
from cgcalc.thermographs import Corner, Thermograph
from cgcalc.values import Value

FAILED = "! failed "


class _Answer:
    """What all answers have, and a refusal has otherwise."""

    @property
    def refused(self) -> bool:
        """Whether the line was refused: here never."""
        return False


@dataclass(frozen=True)
class Order(_Answer):
    """How two games compare: `<`, `>`, `=`, or two bars where they are confused."""

    sign: str

    def __str__(self) -> str:
        return self.sign


@dataclass(frozen=True)
class Outcome(_Answer):
    """Who wins: `L` Left, `R` Right, `P` the previous player, `N` the next player."""

    winner: str

    def __str__(self) -> str:
        return self.winner


@dataclass(frozen=True)
class Stops(_Answer):
    """The Left stop and the Right stop."""

    left: Fraction
    right: Fraction

    def __iter__(self) -> Iterator[Fraction]:
        return iter((self.left, self.right))

    def __str__(self) -> str:
        return f"left {self.left} right {self.right}"


@dataclass(frozen=True)
class Mean(_Answer):
    """The mean."""

    mean: Fraction

    def __str__(self) -> str:
        return str(self.mean)


@dataclass(frozen=True)
class Temperature(_Answer):
    """The temperature."""

    temperature: Fraction

    def __str__(self) -> str:
        return str(self.temperature)


@dataclass(frozen=True)
class Proof(_Answer):
    """Whether the first game is at least the second, and the text of a proof of it."""

    holds: bool
    text: str

    def __str__(self) -> str:
        return f"{'yes' if self.holds else 'no'} {self.text}"


@dataclass(frozen=True)
class Check(_Answer):
    """Whether the text of a proof was accepted."""

    accepted: bool

    def __str__(self) -> str:
        return "yes" if self.accepted else "no"


@dataclass(frozen=True)
class Failed:
    """Why a question got no answer, asked alone: how the run of the program ended.

    `status` is that of the run, 124 where it took too long, and `told` the last line that it wrote
    to standard error.

    >>> failed = Failed.read("! failed 5")
    >>> failed.status, failed.explain()
    (5, 'cg ended with status 5: memory was wanting')
    """

    status: int
    told: str = field(default="", compare=False)
    kind: ClassVar[str] = "failed"

    @property
    def refused(self) -> bool:
        """Whether the line got no answer: here always."""
        return True

    @classmethod
    def read(cls, text: str) -> Failed:
        """The failure that a table writes as this text."""
        return cls(int(text[len(FAILED) :]))

    def error(self) -> ProgramFailed:
        """The exception that says the same."""
        return ProgramFailed(self.status, self.told)

    def explain(self, line: Optional[str] = None) -> str:
        """What happened, in a sentence."""
        return str(self.error())

    def __str__(self) -> str:
        return f"{FAILED}{self.status}"


Reply = Union[
    Value, Order, Outcome, Stops, Mean, Temperature, Thermograph, Proof, Check, Refusal, Failed
]


def word_of(question: str) -> str:
    """The word that a question begins with.

    >>> word_of(" temp  +-1")
    'temp'
    """
    return re.split(f"[{BLANKS}]", question.strip(BLANKS), maxsplit=1)[0]


def read_reply(question: str, text: str) -> Reply:
    """The reply that the program writes as this text to a question.

    A text that is no reply to the question raises ValueError.

    >>> read_reply("stops {2|0}", "left 2 right 0")
    Stops(left=Fraction(2, 1), right=Fraction(0, 1))
    >>> read_reply("value {2|", "! syntax 10")
    Refusal(kind='syntax', column=10, cause=None, place=None)
    """
    reader: Optional[Callable[[str], Reply]] = READERS.get(word_of(question))
    if text.startswith("! "):
        reader = Failed.read if text.startswith(FAILED) else Refusal.read
    try:
        reply = reader(text) if reader else None
    except (ValueError, ZeroDivisionError):
        reply = None
    if reply is None or str(reply) != text:
        raise ValueError(f"no reply to {question!r}: {text!r}")
    return reply


def read_value(text: str) -> Value:
    """The value that a name such as `{2|0}` tells."""
    return Value.told(text)


def read_order(text: str) -> Order:
    """The order that a sign such as `<` tells."""
    return Order(_one_of(text, ("<", ">", "=", "||")))


def read_outcome(text: str) -> Outcome:
    """The outcome that a letter such as `L` tells."""
    return Outcome(_one_of(text, ("L", "R", "P", "N")))


def read_stops(text: str) -> Stops:
    """The stops in a text such as `left 2 right 0`."""
    _, left, _, right = text.split(" ")
    return Stops(Fraction(left), Fraction(right))


def read_corners(text: str) -> tuple[Corner, ...]:
    """The corners in a text such as `2@0 1@1`."""
    pairs = (corner.split("@") for corner in text.split(" "))
    return tuple(Corner(Fraction(value), Fraction(temperature)) for value, temperature in pairs)


def read_thermograph(text: str) -> Thermograph:
    """The thermograph in a text such as `mean 0 temp 1 left 1@0 0@1 right -1@0 0@1`."""
    numbers, _, walls = text.partition(" left ")
    _, mean, _, temperature = numbers.split(" ")
    left, _, right = walls.partition(" right ")
    return Thermograph(
        Fraction(mean), Fraction(temperature), read_corners(left), read_corners(right)
    )


def read_proof(text: str) -> Proof:
    """The proof in a text such as `yes (g0.)`."""
    word, _, proof = text.partition(" ")
    return Proof(word == "yes", proof)


def _one_of(text: str, texts: tuple[str, ...]) -> str:
    if text not in texts:
        raise ValueError(text)
    return text


READERS: dict[str, Callable[[str], Reply]] = {
    "value": read_value,
    "compare": read_order,
    "outcome": read_outcome,
    "stops": read_stops,
    "mean": lambda text: Mean(Fraction(text)),
    "temp": lambda text: Temperature(Fraction(text)),
    "thermo": read_thermograph,
    "proof": read_proof,
    "check": lambda text: Check(text == "yes"),
}
