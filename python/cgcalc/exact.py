"""Numbers as Python, numpy and Sage have them, made exact numbers of Python's own."""
from __future__ import annotations

from fractions import Fraction
from numbers import Rational
from operator import index
from typing import Any, Optional


def whole_number(number: object) -> Optional[int]:
    """The whole number that something is, or None where it is none.

    >>> whole_number(3), whole_number(True), whole_number(3.0), whole_number("3")
    (3, 1, None, None)
    """
    try:
        return index(number)  # type: ignore[arg-type]
    except TypeError:
        return None


def exact_number(number: object) -> Optional[Fraction]:
    """The fraction that something is, or None where it is none.

    >>> exact_number(3), exact_number(Fraction(1, 2)), exact_number(0.5)
    (Fraction(3, 1), Fraction(1, 2), None)
    """
    whole = whole_number(number)
    if whole is not None:
        return Fraction(whole)
    if not isinstance(number, Rational):
        return None
    return Fraction(_part(number.numerator), _part(number.denominator))


def _part(part: Any) -> int:
    """A numerator or denominator, which Sage gives by a call."""
    return int(part() if callable(part) else part)
