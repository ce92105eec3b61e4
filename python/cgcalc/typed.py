"""Questions asked one at a time, each answered by what it asks for."""
from __future__ import annotations

from dataclasses import dataclass
from fractions import Fraction
from typing import TypeVar

from cgcalc.definitions import Names, one_meaning
from cgcalc.errors import Refused
from cgcalc.latex import latex_of
from cgcalc.operands import Expression, named, text_of
from cgcalc.program import CgError
from cgcalc.refusals import Refusal
from cgcalc.replies import (
    Check,
    Mean,
    Order,
    Outcome,
    Proof,
    Reply,
    Stops,
    Temperature,
)
from cgcalc.thermographs import Thermograph
from cgcalc.values import Value

Answer = TypeVar("Answer")
SIGNS = {"||": r"\parallel"}


@dataclass(frozen=True)
class Comparison:
    """How two games compare: `sign` is `<`, `>`, `=`, or two bars where they are confused.

    >>> str(Comparison("^", "||", "*"))
    '^ || *'
    """

    left: str
    sign: str
    right: str

    def __str__(self) -> str:
        return f"{self.left} {self.sign} {self.right}"

    def latex(self) -> str:
        """The comparison as papers write it, in LaTeX, for a formula."""
        sign = SIGNS.get(self.sign, self.sign)
        return f"{latex_of(self.left)} {sign} {latex_of(self.right)}"

    def _repr_latex_(self) -> str:
        """The comparison as papers write it, for notebooks."""
        return f"${self.latex()}$"


class TypedCalls:
    """The questions as calls. What is asked about is a text, a game, a value or a number.

    A question that the program refuses raises `Refused`.
    """

    @property
    def names(self) -> Names:
        """What the names in texts stand for."""
        raise NotImplementedError

    def _ask_with(self, line: str, names: Names) -> Reply:
        """The reply to a question in which names stand for games of their own."""
        raise NotImplementedError

    def value(self, expression: Expression) -> Value:
        """The value of a game, which is the name of its canonical form."""
        return self._answer(Value, "value", expression)

    def outcome(self, expression: Expression) -> str:
        """Who wins: `L` Left, `R` Right, `P` the previous player, `N` the next player."""
        return self._answer(Outcome, "outcome", expression).winner

    def stops(self, expression: Expression) -> Stops:
        """The Left stop and the Right stop."""
        return self._answer(Stops, "stops", expression)

    def mean(self, expression: Expression) -> Fraction:
        """The mean."""
        return self._answer(Mean, "mean", expression).mean

    def temperature(self, expression: Expression) -> Fraction:
        """The temperature."""
        return self._answer(Temperature, "temp", expression).temperature

    def thermograph(self, expression: Expression) -> Thermograph:
        """The thermograph."""
        return self._answer(Thermograph, "thermo", expression)

    def compare(self, first: Expression, second: Expression) -> Comparison:
        """How the first game compares with the second."""
        order = self._answer(Order, "compare", first, second)
        return Comparison(text_of(first), order.sign, text_of(second))

    def proof(self, first: Expression, second: Expression) -> Proof:
        """Whether the first game is at least the second, with a proof of it or against it."""
        return self._answer(Proof, "proof", first, second)

    def check(self, first: Expression, second: Expression, proof: str) -> bool:
        """Whether a text is a proof that the first game is at least the second."""
        return self._answer(Check, "check", first, second, f'"{proof}"').accepted

    def _answer(self, kind: type[Answer], word: str, *parts: Expression) -> Answer:
        texts, names = one_meaning([named(part, self.names) for part in parts])
        line = f"{word} {' ; '.join(texts)}"
        reply = self._ask_with(line, names)
        if isinstance(reply, Refusal):
            raise Refused(line, reply)
        if not isinstance(reply, kind):
            raise CgError(f"{line!r} asks for {kind.__name__}, and the reply is {reply!r}")
        return reply
