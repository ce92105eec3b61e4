"""A thermograph drawn with characters: Left's values to the left, temperatures upwards."""
from __future__ import annotations

from fractions import Fraction
from math import lcm

from cgcalc.thermographs import Thermograph

FEWEST_STEPS, MOST_STEPS = 8, 16
"""How many lines there are from the temperature 0 to the temperature."""
MAST_LINES = 2
MARGIN = 4


def drawn(thermograph: Thermograph) -> str:
    """The picture: the walls up to the temperature, the mast above, and numbers at the corners.

    >>> from cgcalc.replies import read_reply
    >>> text = "mean 5/2 temp 3/2 left 4@0 5/2@3/2 right 2@0 2@1 5/2@3/2"
    >>> print(drawn(read_reply("thermo {4||2|0}", text)))
                   5/2
                    |
    3/2             |
                   / \\
                  /   \\
      1          /     \\
                /      |
               /       |
              /        |
             /         |
            /          |
      0    /           |
           4           2
    """
    steps, step = _scale(thermograph)
    temperatures = {corner.temperature for corner in (*thermograph.left, *thermograph.right)}
    labels = {round(t / step) if step else 0: str(t) for t in sorted(temperatures)}
    width = max(map(len, labels.values()))
    lines = []
    for number in reversed(range(steps + MAST_LINES + 1)):
        label = labels.get(number, "") if number <= steps else ""
        lines.append(f"{label:>{width}}{_walls(thermograph, number, step)}".rstrip())
    above = {_column(thermograph, thermograph.mean, step): str(thermograph.mean)}
    below = {
        _column(thermograph, wall[0].value, step): str(wall[0].value)
        for wall in (thermograph.left, thermograph.right)
    }
    edge = " " * width
    return "\n".join([edge + _labelled(above), *lines[1:], edge + _labelled(below)])


def _scale(thermograph: Thermograph) -> tuple[int, Fraction]:
    """How many lines there are up to the temperature, and how much each is higher."""
    corners = (*thermograph.left, *thermograph.right)
    temperature = max(corner.temperature for corner in corners)
    if temperature == 0:
        return 0, Fraction(0)
    denominator = lcm(*(corner.temperature.denominator for corner in corners))
    exact = int(temperature * denominator)
    steps = exact if exact <= MOST_STEPS else MOST_STEPS
    while steps < FEWEST_STEPS:
        steps += exact
    return steps, temperature / steps


def _column(thermograph: Thermograph, value: Fraction, step: Fraction) -> int:
    """The column of a value: a step of the temperature is a column wide."""
    return MARGIN + (round((thermograph.left[0].value - value) / step) if step else 0)


def _walls(thermograph: Thermograph, number: int, step: Fraction) -> str:
    """The walls, or the mast, on a line."""
    here, above = thermograph.at(number * step), thermograph.at((number + 1) * step)
    left, right = (_column(thermograph, value, step) for value in here)
    if left == right:
        return " " * left + "|"
    signs = ("/" if here.left != above.left else "|", "\\" if here.right != above.right else "|")
    return " " * left + signs[0] + " " * (right - left - 1) + signs[1]


def _labelled(labels: dict[int, str]) -> str:
    """Texts centred at columns, each behind the one before."""
    line = ""
    for column, label in sorted(labels.items()):
        start = max(column - len(label) // 2, len(line) + 1 if line else 0)
        line = line.ljust(start) + label
    return line
