"""What games and values have in common: they are added, subtracted, multiplied and compared."""
from __future__ import annotations

from numbers import Rational
from typing import TYPE_CHECKING, Union

from cgcalc.definitions import Named, Names
from cgcalc.errors import WrongCall
from cgcalc.exact import exact_number

if TYPE_CHECKING:
    from cgcalc.game import Game


class Operand:
    """A game, or what stands for one. Sums and multiples are games; each order is asked."""

    __slots__ = ()

    @property
    def expression(self) -> str:
        """The text of the game in the notation."""
        raise NotImplementedError

    @property
    def names(self) -> Names:
        """What the names in the text stand for."""
        return Names()

    def __add__(self, other: Summand) -> Game:
        return _game(self).plus(_summand("+", other))

    def __radd__(self, other: Summand) -> Game:
        return _summand("+", other).plus(_game(self))

    def __sub__(self, other: Summand) -> Game:
        return _game(self).plus(_summand("-", other).negative())

    def __rsub__(self, other: Summand) -> Game:
        return _summand("-", other).plus(_game(self).negative())

    def __neg__(self) -> Game:
        return _game(self).negative()

    def __pos__(self) -> Game:
        return _game(self)

    def __mul__(self, count: int) -> Game:
        return _game(self).times(count)

    def __rmul__(self, count: int) -> Game:
        return _game(self).times(count)

    def __lt__(self, other: Summand) -> bool:
        return _game(self).compare(_summand("<", other)).sign == "<"

    def __le__(self, other: Summand) -> bool:
        return _game(self).compare(_summand("<=", other)).sign in ("<", "=")

    def __gt__(self, other: Summand) -> bool:
        return _game(self).compare(_summand(">", other)).sign == ">"

    def __ge__(self, other: Summand) -> bool:
        return _game(self).compare(_summand(">=", other)).sign in (">", "=")


Summand = Union[Operand, Rational, int]
Expression = Union[Operand, Rational, int, str]


def text_of(expression: Expression) -> str:
    """The text of an expression in the notation.

    >>> from fractions import Fraction
    >>> text_of("{2|-1} + ^"), text_of(Fraction(3, 2)), text_of(-2)
    ('{2|-1} + ^', '3/2', '-2')
    """
    if isinstance(expression, Operand):
        return expression.expression
    number = exact_number(expression)
    if number is not None:
        return str(number)
    if not isinstance(expression, str):
        raise WrongCall(
            f"{expression!r} is no game: give a text such as '{{2|-1}} + ^', a game, a value, an"
            " int or a Fraction"
        )
    if "\n" in expression.strip():
        raise WrongCall(f"an expression stands on one line, and this has several: {expression!r}")
    if not expression.strip():
        raise WrongCall("an expression has to say something, and this is blank")
    return expression.strip()


def named(expression: Expression, names: Names) -> Named:
    """The text of an expression, and what its names stand for: in a text what they do now."""
    text = text_of(expression)
    return text, expression.names if isinstance(expression, Operand) else names.used([text])


def _game(operand: Expression) -> Game:
    from cgcalc.game import Game  # values make games, and games have values

    return operand if isinstance(operand, Game) else Game(operand)


def _summand(sign: str, other: Summand) -> Game:
    if isinstance(other, Operand) or exact_number(other) is not None:
        return _game(other)
    if isinstance(other, str):
        raise WrongCall(f"a text is no game by itself: write Game({other!r}) behind the {sign}")
    raise WrongCall(f"behind {sign} stands a game, a value, an int or a Fraction, not {other!r}")
