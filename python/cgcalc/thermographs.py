"""Thermographs: their corners, their walls at each temperature, and their pictures."""
from __future__ import annotations

from dataclasses import dataclass
from fractions import Fraction
from numbers import Rational
from typing import NamedTuple, Optional, Union

from cgcalc.errors import WrongCall
from cgcalc.exact import exact_number
from cgcalc.pictures import thermograph_picture
from cgcalc.tikz import tikz_of

LEAST_HEIGHT = 40
MOST_HEIGHT = 4_000


@dataclass(frozen=True)
class Corner:
    """A corner of a wall: the wall's value at a temperature."""

    value: Fraction
    temperature: Fraction

    def __str__(self) -> str:
        return f"{self.value}@{self.temperature}"


Wall = tuple[Corner, ...]


class Walls(NamedTuple):
    """The values of the left and of the right wall at one temperature."""

    left: Fraction
    right: Fraction


@dataclass(frozen=True)
class Thermograph:
    """The mean, the temperature, and the corners of the walls, from the temperature 0 on.

    In a notebook it shows its picture.

    >>> corners = (Corner(Fraction(1), Fraction(0)), Corner(Fraction(0), Fraction(1)))
    >>> thermograph = Thermograph(Fraction(0), Fraction(1), corners, corners[1:])
    >>> thermograph.at(Fraction(1, 4)).left
    Fraction(3, 4)
    """

    mean: Fraction
    temperature: Fraction
    left: Wall
    right: Wall

    @property
    def refused(self) -> bool:
        """Whether the line was refused: here never."""
        return False

    def at(self, temperature: Union[Rational, int, float]) -> Walls:
        """The values of the walls at a temperature from 0 on; on the mast both are the mean."""
        number = _temperature(temperature)
        return Walls(_value_at(self.left, number), _value_at(self.right, number))

    def svg(self, *, title: Optional[str] = None, height: int = 260) -> str:
        """A picture in SVG: Left's values to the left, Left's wall blue and Right's red.

        The walls and the mast are `height` pixels high together; the `title` stands above them.
        """
        if not isinstance(height, int) or not LEAST_HEIGHT <= height <= MOST_HEIGHT:
            most = f"from {LEAST_HEIGHT} to {MOST_HEIGHT}"
            raise WrongCall(f"the height is a number of pixels {most}, not {height!r}")
        return thermograph_picture(self, title=title, height=height).svg()

    def tikz(self) -> str:
        """A picture in TikZ, for papers."""
        return tikz_of(self)

    def _repr_svg_(self) -> str:
        """The picture, for notebooks."""
        return self.svg()

    def __str__(self) -> str:
        left, right = (" ".join(str(corner) for corner in wall) for wall in (self.left, self.right))
        return f"mean {self.mean} temp {self.temperature} left {left} right {right}"


def _temperature(number: Union[Rational, int, float]) -> Fraction:
    exact = exact_number(number)
    try:
        temperature = Fraction(number) if exact is None else exact
    except (TypeError, ValueError, OverflowError):
        raise WrongCall(f"a temperature is a number, not {number!r}") from None
    if temperature < 0:
        raise WrongCall(f"the walls are known from the temperature 0 on, and {number} is below it")
    return temperature


def _value_at(wall: Wall, temperature: Fraction) -> Fraction:
    """A wall's value: on the line between the corners around it, above the last that corner's."""
    for below, above in zip(wall, wall[1:]):
        if temperature <= above.temperature:
            slope = (above.value - below.value) / (above.temperature - below.temperature)
            return below.value + (temperature - below.temperature) * slope
    return wall[-1].value
