"""Pictures of thermographs: Left's values to the left, the temperature upward."""
from __future__ import annotations

from dataclasses import dataclass
from fractions import Fraction
from math import ceil, floor
from typing import TYPE_CHECKING, Optional, Sequence

from cgcalc.svg import (
    FAINT,
    FONT_SIZE,
    INK,
    LEFT,
    RIGHT,
    TITLE_SIZE,
    Picture,
    path,
    tag,
    width_of,
    words,
)

if TYPE_CHECKING:
    from cgcalc.thermographs import Corner, Thermograph

ASIDE = Fraction(1, 4)
ABOVE = Fraction(3, 10)
NARROWEST = 150
GAP = 9
LINE = 15
LONGEST = 80
HEAD = 30
TITLE = 24
FOOT = 44
TICK = 5
APART = (34, 44, 60, 90, 140, 240, 500, 1000)

Place = tuple[float, float]


@dataclass(frozen=True)
class Label:
    """A corner's label: its text, the end of it that is next to the corner, and the corner."""

    text: str
    x: float
    y: float
    corner: Place

    @property
    def reach(self) -> float:
        """Where its other end is."""
        return self.x + (width_of(self.text) if self.x > self.corner[0] else -width_of(self.text))


class Plot:
    """The drawing of one thermograph.

    Values and temperatures have one scale, so walls lean by 45 degrees where they lean. The highest
    value is at the place 0, and lesser ones are on its right.
    """

    def __init__(self, thermograph: Thermograph, height: int, head: int) -> None:
        self.thermograph = thermograph
        hot = thermograph.temperature if thermograph.temperature > 0 else Fraction(1)
        self.pixels = height / float(hot * (1 + ABOVE))
        self.head = head
        self.foot = head + height
        self.highest = thermograph.left[0].value
        left, right = thermograph.left, thermograph.right
        self.left_labels = self._labels(left[:-1], -GAP)
        self.right_labels = self._labels(right, GAP)
        aside = float(hot * ASIDE) * self.pixels
        ends = [label.reach for label in (*self.left_labels, *self.right_labels)]
        self.start = min(-aside, *(end - GAP for end in ends))
        self.end = max(self.x(right[0].value) + aside, *(end + GAP for end in ends))
        spare = max(NARROWEST - (self.end - self.start), 0) / 2
        self.start, self.end = self.start - spare, self.end + spare

    def x(self, value: Fraction) -> float:
        """Where a value is."""
        return float(self.highest - value) * self.pixels

    def y(self, temperature: Fraction) -> float:
        """Where a temperature is."""
        return self.foot - float(temperature) * self.pixels

    def place(self, corner: Corner) -> Place:
        """Where a corner is."""
        return self.x(corner.value), self.y(corner.temperature)

    def _labels(self, wall: Sequence[Corner], aside: int) -> list[Label]:
        """The labels of a wall's corners, beside them, and each above the one before it."""
        labels: list[Label] = []
        for corner in wall:
            x, y = self.place(corner)
            beside = min(y - 5, labels[-1].y - LINE) if labels else y - 5
            labels.append(Label(str(corner), x + aside, beside, (x, y)))
        return labels

    def drawn(self) -> str:
        """All that is drawn."""
        parts = [*self._axes(), *self._walls(), *self._written()]
        return tag("g", "\n".join(["", *parts, ""]), transform=f"translate({-self.start:.2f},0)")

    def _axes(self) -> list[str]:
        """The temperature axis on the left, the values below, and faint lines at the ticks."""
        start, end, foot, top = self.start, self.end, self.foot, self.head
        parts = []
        for number in self.temperatures():
            y = self.y(number)
            parts.append(path((start, y), (end, y), stroke=FAINT))
            parts.append(path((start - TICK, y), (start, y), stroke=INK))
            parts.append(_tick(number, start - TICK - 3, y + 4, "end", "temperature-tick"))
        for number in self._values():
            x = self.x(number)
            parts.append(path((x, foot), (x, foot + TICK), stroke=INK))
            parts.append(_tick(number, x, foot + TICK + 13, "middle", "value-tick"))
        parts.append(path((start, top - 8), (start, foot), (end, foot), stroke=INK))
        parts.append(words("temperature", start - TICK, top - 16, fill=INK))
        parts.append(words("\u2190 Left", start, foot + 36, fill=LEFT))
        parts.append(words("Right \u2192", end, foot + 36, fill=RIGHT, text_anchor="end"))
        return parts

    def temperatures(self) -> list[Fraction]:
        """The temperatures of the ticks."""
        top = Fraction(self.foot - self.head) / Fraction(self.pixels)
        return multiples(nice_step(APART[0] / self.pixels), Fraction(0), top)

    def _values(self) -> list[Fraction]:
        """The values of the ticks, as near as their texts let them stand."""
        lowest = self.highest - Fraction((self.end - 4) / self.pixels)
        highest = self.highest - Fraction((self.start + 4) / self.pixels)
        numbers: list[Fraction] = []
        for apart in APART:
            step = nice_step(apart / self.pixels)
            numbers = multiples(step, lowest, highest)
            widest = max((width_of(str(number)) for number in numbers), default=0)
            if widest + GAP <= float(step) * self.pixels:
                break
        return numbers

    def _walls(self) -> list[str]:
        """The walls, what is between them, and the mast with its arrow."""
        left = [self.place(corner) for corner in self.thermograph.left]
        right = [self.place(corner) for corner in self.thermograph.right]
        x, y = left[-1]
        top = self.head
        parts = [path(*left, *right[::-1], stroke="none", fill="#f3f1ea", class_="between")]
        parts.append(path((x, y), (x, self.foot), stroke="#bbbbbb", stroke_dasharray="2 4"))
        if len(left) > 1:
            parts.append(path(*left, stroke=LEFT, stroke_width=2.5, class_="left-wall"))
            parts.append(path(*right, stroke=RIGHT, stroke_width=2.5, class_="right-wall"))
        parts.append(path((x, y), (x, top + 4), stroke=INK, stroke_width=2.5, class_="mast"))
        arrow = [(x - 5, top + 6), (x, top - 6), (x + 5, top + 6)]
        parts.append(path(*arrow, fill=INK, stroke="none"))
        return parts

    def _written(self) -> list[str]:
        """The corners, and their labels, with a thin line to those that stand apart."""
        parts = []
        foot = self.right_labels[-1].corner
        for labels, anchor, colour in (
            (self.left_labels, "end", LEFT),
            (self.right_labels, "start", RIGHT),
        ):
            for label in labels:
                x, y = label.corner
                ink = INK if label.corner == foot else colour
                if label.y < y - LINE:
                    parts.append(path((x, y), (label.x, label.y - 4), stroke=ink, stroke_width=0.6))
                parts.append(tag("circle", cx=x, cy=y, r=3.5, fill=ink))
                written = {"text_anchor": anchor, "fill": ink, "class_": "corner"}
                parts.append(words(label.text, label.x, label.y, **written))
        return parts


def thermograph_picture(
    thermograph: Thermograph, *, title: Optional[str] = None, height: int = 260
) -> Picture:
    """The picture of a thermograph: both axes, the walls, the mast, and the corners' labels."""
    plot = Plot(thermograph, height, HEAD + (TITLE if title else 0))
    title = title if title is None or len(title) <= LONGEST else f"{title[: LONGEST - 2]}.."
    margin = max(width_of(str(number)) for number in plot.temperatures()) + TICK + 2 * GAP
    width = margin + plot.end - plot.start + GAP
    wide = width_of(title or "") * TITLE_SIZE / FONT_SIZE + 2 * GAP
    if wide > width:
        margin, width = margin + (wide - width) / 2, wide
    body = tag("g", f"\n{plot.drawn()}\n", transform=f"translate({margin:.2f},0)")
    shows = f"Thermograph: mean {thermograph.mean}, temperature {thermograph.temperature}"
    if title:
        body += "\n" + words(
            title, width / 2, 20, text_anchor="middle", font_size=TITLE_SIZE, fill=INK
        )
        shows = f"{title}. {shows}"
    return Picture(width, plot.foot + FOOT, shows, body)


def nice_step(least: float) -> Fraction:
    """The least number from .., 1/4, 1/2, 1, 2, 5, 10, 20, .. that is at least this.

    >>> [str(nice_step(least)) for least in (0.2, 0.9, 1.5, 30)]
    ['1/4', '1', '2', '50']
    """
    step = Fraction(1)
    while step / 2 >= least:
        step /= 2
    while step < least:
        for times in (2, 5, 10):
            if step * times >= least:
                return step * times
        step *= 10
    return step


def multiples(step: Fraction, low: Fraction, high: Fraction) -> list[Fraction]:
    """The multiples of a step between two numbers.

    >>> [str(number) for number in multiples(Fraction(1, 2), Fraction(1, 3), Fraction(5, 3))]
    ['1/2', '1', '3/2']
    """
    return [step * count for count in range(ceil(low / step), floor(high / step) + 1)]


def _tick(number: Fraction, x: float, y: float, anchor: str, kind: str) -> str:
    return words(str(number), x, y, text_anchor=anchor, fill=INK, class_=kind)
