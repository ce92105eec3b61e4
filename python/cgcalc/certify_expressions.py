"""Expressions as trees, in the notation of the language and in that of the theory for Coq."""
from __future__ import annotations

from dataclasses import dataclass
from fractions import Fraction
from typing import Union

from cgcalc.names import Plain

SUM, NEGATED, SIGNED, SINGLE = 3, 2, 1, 0
"""How loosely an expression is bound: a sum, a negative, a switch, what needs no parentheses."""


@dataclass(frozen=True)
class Number:
    """A number from 0 up."""

    value: Fraction


@dataclass(frozen=True)
class Nimber:
    """A heap of Nim."""

    size: int


@dataclass(frozen=True)
class Brace:
    """The game with these options."""

    lefts: tuple[Expression, ...]
    rights: tuple[Expression, ...]


@dataclass(frozen=True)
class Negative:
    """The game with the players exchanged."""

    of: Expression


@dataclass(frozen=True)
class Plus:
    """Two games side by side."""

    first: Expression
    second: Expression


@dataclass(frozen=True)
class Multiple:
    """So many copies of a game."""

    count: int
    of: Expression


@dataclass(frozen=True)
class Position:
    """A position of a game on a board, with its texts."""

    game: str
    texts: tuple[str, ...]


Expression = Union[Number, Nimber, Brace, Negative, Plus, Multiple, Position]

ZERO = Number(Fraction(0))
STAR = Nimber(1)
UP = Brace((ZERO,), (STAR,))


def number_of(value: Fraction) -> Expression:
    """A number, which below 0 is a negative."""
    return Number(value) if value >= 0 else Negative(Number(-value))


def switch_of(size: Fraction) -> Brace:
    """The switch between a number and its negative."""
    return Brace((Number(size),), (Negative(Number(size)),))


def tiny_of(size: Fraction) -> Brace:
    """Tiny of a number."""
    return Brace((ZERO,), (Brace((ZERO,), (Negative(Number(size)),)),))


def miny_of(size: Fraction) -> Brace:
    """Miny of a number."""
    return Brace((Brace((Number(size),), (ZERO,)),), (ZERO,))


def plain_of(plain: Plain) -> Expression:
    """A number, ups and a nimber, added up.

    >>> language_text(plain_of(Plain(Fraction(2), -3, 1)))
    '2 + -(3.{0|*}) + *'
    """
    parts: list[Expression] = []
    if plain.number or plain.is_number:
        parts.append(number_of(plain.number))
    if plain.ups:
        ups: Expression = UP if abs(plain.ups) == 1 else Multiple(abs(plain.ups), UP)
        parts.append(ups if plain.ups > 0 else Negative(ups))
    if plain.nim:
        parts.append(Nimber(plain.nim))
    return sum_of(parts)


def sum_of(parts: list[Expression]) -> Expression:
    """The parts, added one after the other."""
    whole = parts[0]
    for part in parts[1:]:
        whole = Plus(whole, part)
    return whole


def language_text(expression: Expression) -> str:
    """An expression as `cg` reads it.

    >>> language_text(Plus(Negative(STAR), Multiple(2, switch_of(Fraction(1, 2)))))
    '-(*) + 2.{1/2|-(1/2)}'
    """
    if isinstance(expression, Number):
        return str(expression.value)
    if isinstance(expression, Nimber):
        return "*" if expression.size == 1 else f"*{expression.size}"
    if isinstance(expression, Brace):
        lefts, rights = map(",".join, map(language_texts, (expression.lefts, expression.rights)))
        return f"{{{lefts}|{rights}}}"
    if isinstance(expression, Negative):
        return f"-({language_text(expression.of)})"
    if isinstance(expression, Plus):
        second = language_text(expression.second)
        second = f"({second})" if isinstance(expression.second, Plus) else second
        return f"{language_text(expression.first)} + {second}"
    if isinstance(expression, Multiple):
        braced = isinstance(expression.of, Brace)
        inner = language_text(expression.of)
        return f"{expression.count}.{inner if braced else f'({inner})'}"
    texts = ",".join(f'"{text}"' for text in expression.texts)
    return f"{expression.game}({texts})"


def language_texts(expressions: tuple[Expression, ...]) -> list[str]:
    """Expressions as `cg` reads them."""
    return list(map(language_text, expressions))


def coq_text(expression: Expression, loosest: int = SUM) -> str:
    """An expression in the notation of formal/Values.v.

    It stands in parentheses if it binds more loosely than is allowed.

    >>> coq_text(Plus(switch_of(Fraction(1)), Negative(Multiple(3, UP))))
    '± 1 - 3 · ↑'
    """
    text, binding = _coq_text(expression)
    return text if binding <= loosest else f"({text})"


def _coq_text(expression: Expression) -> tuple[str, int]:
    if isinstance(expression, Number):
        return str(expression.value).replace("/", " / "), SINGLE
    if isinstance(expression, Nimber):
        return ("∗" if expression.size == 1 else f"∗ {expression.size}"), SINGLE
    if isinstance(expression, Brace):
        return _coq_brace(expression)
    if isinstance(expression, Negative):
        return f"- {coq_text(expression.of, SIGNED)}", NEGATED
    if isinstance(expression, Plus):
        first, second, sign = expression.first, expression.second, "+"
        if isinstance(second, Negative):
            second, sign = second.of, "-"
        return f"{coq_text(first)} {sign} {coq_text(second, NEGATED)}", SUM
    if isinstance(expression, Multiple):
        return f"{expression.count} · {coq_text(expression.of, SINGLE)}", SINGLE
    texts = ", ".join(f'"{text}"' for text in expression.texts)
    return f"{expression.game}({texts})", SINGLE


def _coq_brace(brace: Brace) -> tuple[str, int]:
    if brace == UP:
        return "↑", SINGLE
    if len(brace.lefts) == 1:
        (left,) = brace.lefts
        if isinstance(left, Number) and brace == switch_of(left.value):
            return f"± {coq_text(left, SINGLE)}", SIGNED
    for word, shape in (("Tiny", tiny_of), ("Miny", miny_of)):
        size = _size_of(brace)
        if size is not None and brace == shape(size):
            return f"{word}({coq_text(Number(size))})", SINGLE
    sides = (", ".join(map(coq_text, side)) for side in (brace.lefts, brace.rights))
    return "{" + " | ".join(side or " " for side in sides) + "}", SINGLE


def _size_of(brace: Brace) -> Union[Fraction, None]:
    """The number x if the brace has the shape of tiny or miny of x."""
    for side in (brace.lefts, brace.rights):
        inner = side[0] if len(side) == 1 else None
        if not isinstance(inner, Brace):
            continue
        for option in (*inner.lefts, *inner.rights):
            size = option.of if isinstance(option, Negative) else option
            if isinstance(size, Number) and size.value:
                return size.value
    return None
