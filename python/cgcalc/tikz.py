"""Thermographs in TikZ, for papers."""
from __future__ import annotations

from fractions import Fraction
from typing import TYPE_CHECKING

if TYPE_CHECKING:
    from cgcalc.thermographs import Thermograph, Wall

MAST = 1
"""How high the mast is drawn above the temperature."""


def tikz_of(thermograph: Thermograph) -> str:
    r"""A thermograph in TikZ: Left's values to the left, temperatures upwards, a unit a number.

    >>> from cgcalc.replies import read_reply
    >>> text = "mean 1 temp 1 left 2@0 1@1 right 0@0 1@1"
    >>> print(tikz_of(read_reply("thermo {2|0}", text)), end="")
    \begin{tikzpicture}
    \draw[thick, blue] (-2,0) -- (-1,1);
    \draw[thick, red] (0,0) -- (-1,1);
    \draw[thick] (-1,1) -- (-1,2);
    \node[below] at (-2,0) {$2$};
    \node[below] at (0,0) {$0$};
    \node[above] at (-1,2) {$1$};
    \end{tikzpicture}
    """
    mean, top = thermograph.mean, max(thermograph.temperature, Fraction(0))
    lines = [r"\begin{tikzpicture}"]
    for colour, wall in (("blue", thermograph.left), ("red", thermograph.right)):
        if len(wall) > 1:
            lines.append(rf"\draw[thick, {colour}] {_path(wall)};")
    lines.append(rf"\draw[thick] {_place(mean, top)} -- {_place(mean, top + MAST)};")
    feet = dict.fromkeys((thermograph.left[0].value, thermograph.right[0].value))
    lines += [rf"\node[below] at {_place(foot, Fraction(0))} {{{_number(foot)}}};" for foot in feet]
    lines.append(rf"\node[above] at {_place(mean, top + MAST)} {{{_number(mean)}}};")
    return "\n".join([*lines, r"\end{tikzpicture}", ""])


def _path(wall: Wall) -> str:
    return " -- ".join(_place(corner.value, corner.temperature) for corner in wall)


def _place(value: Fraction, temperature: Fraction) -> str:
    """A place: values go down to the right. What numbers are written as is exact."""
    return f"({_exact(-value)},{_exact(temperature)})"


def _exact(number: Fraction) -> str:
    """A number whose denominator is a power of two, in decimals."""
    places = number.denominator.bit_length() - 1
    digits = f"{abs(number.numerator) * 5**places:0{places + 1}d}"
    whole, part = digits[: len(digits) - places], digits[len(digits) - places :]
    return ("-" if number < 0 else "") + (f"{whole}.{part}" if places else whole)


def _number(number: Fraction) -> str:
    sign = "-" if number < 0 else ""
    above, below = abs(number.numerator), number.denominator
    return f"${sign}{above}$" if below == 1 else rf"${sign}\frac{{{above}}}{{{below}}}$"
