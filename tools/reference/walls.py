"""Thermographs, with walls as exact lines from corner to corner."""
from fractions import Fraction
from typing import NamedTuple

from .forms import positions


class Thermograph(NamedTuple):
    """The mean, the temperature, and the corners of both walls, each a value and the temperature at which it is taken."""

    mean: Fraction
    temperature: Fraction
    left: tuple
    right: tuple


FOUND: dict = {}


def forget():
    """Forgets all thermographs."""
    FOUND.clear()


def thermograph(form):
    """The thermograph of a form in canonical form.

    Both walls of a number x are x, its mean is x, and its temperature -1/d with d its denominator. Else the left scaffold at
    t is the greatest right wall of a Left option less t, and the right scaffold the least left wall of a Right option plus
    t. Below the least t at which they meet the walls are the scaffolds; from there up they keep the value of that point.
    """
    found = FOUND.get(form)
    if found is None:
        if form.number is not None:
            x = form.number
            found = Thermograph(x, Fraction(-1, x.denominator), ((x, Fraction(0)),), ((x, Fraction(0)),))
        else:
            found = met([thermograph(a).right for a in form.lefts], [thermograph(b).left for b in form.rights])
        FOUND[form] = found
    return found


def value_at(wall, t):
    """The value of a wall at t: on the line between two corners, or that of the last corner."""
    before = wall[0]
    for corner in wall:
        if corner[1] >= t:
            if corner[1] == t:
                return corner[0]
            return before[0] + (corner[0] - before[0]) * (t - before[1]) / (corner[1] - before[1])
        before = corner
    return before[0]


def turns(walls):
    """The temperatures between which the greatest and the least of the walls are straight."""
    times = sorted({at for wall in walls for _, at in wall})
    found = set(times)
    for low, high in zip(times, times[1:]):
        ends = [(value_at(wall, low), value_at(wall, high)) for wall in walls]
        for at, (a, b) in enumerate(ends):
            for c, d in ends[:at]:
                if (a - c) * (b - d) < 0:
                    found.add(low + (high - low) * (a - c) / ((a - c) - (b - d)))
    return found


def met(rights_of_lefts, lefts_of_rights):
    """The thermograph of a game that equals no number, by the right walls of its Left options and the left walls of its
    Right options."""

    def left(t):
        return max(value_at(wall, t) for wall in rights_of_lefts) - t

    def right(t):
        return min(value_at(wall, t) for wall in lefts_of_rights) + t

    times = sorted(turns(rights_of_lefts) | turns(lefts_of_rights))
    temperature = None
    before = times[0]
    for t in times:
        if left(t) <= right(t):
            gap, next_gap = left(before) - right(before), left(t) - right(t)
            temperature = before + (t - before) * gap / (gap - next_gap) if gap > 0 else before
            break
        before = t
    if temperature is None:
        temperature = before + (left(before) - right(before)) / 2
    mean = left(temperature)
    below = [t for t in times if t < temperature]
    return Thermograph(mean, temperature, corners(left, below, temperature), corners(right, below, temperature))


def corners(scaffold, times, temperature):
    """The point at 0, those at which the slope changes below the temperature, and that at the temperature."""
    points = [(scaffold(t), t) for t in times + [temperature]]
    kept = points[:1]
    for before, point, after in zip(points, points[1:], points[2:]):
        if (point[0] - before[0]) * (after[1] - point[1]) != (after[0] - point[0]) * (point[1] - before[1]):
            kept.append(point)
    return tuple(kept + points[1:][-1:])


def has_long_wall(form):
    """Whether the mean or the temperature of some position needs more than sixty binary places."""
    walls = map(thermograph, positions(form))
    return any(value.denominator > 1 << 60 for wall in walls for value in (wall.mean, wall.temperature))
