"""Pictures of Hackenbush: the ground below, and each vertex as high as its edges hold it."""
from __future__ import annotations

import re
from dataclasses import dataclass
from typing import Optional

from cgcalc.svg import EITHER, INK, LEFT, RIGHT, Picture, path, tag

EDGES = re.compile(r"[0-9A-Z][brg][0-9A-Z](,[0-9A-Z][brg][0-9A-Z]){0,63}")
COLOURS = {"b": LEFT, "r": RIGHT, "g": EITHER}
GROUND = "0"
STEP = 56
ASIDE = 34
EDGE = 24
BOW = 20

Place = tuple[float, float]


@dataclass(frozen=True)
class Edge:
    """An edge: its ends and its colour."""

    first: str
    colour: str
    second: str

    @property
    def ends(self) -> tuple[str, str]:
        """Its ends in the order of their names."""
        return min(self.first, self.second), max(self.first, self.second)


def hackenbush_picture(shows: str, text: str) -> Optional[Picture]:
    """The picture of a drawing; None where the text is none."""
    if not EDGES.fullmatch(text):
        return None
    edges = [Edge(*word) for word in text.split(",")]
    levels, children = _levels(edges)
    columns = _columns(children)
    tall = float(max(levels.values()) * STEP + EDGE)
    wide = (max(columns.values()) + 1) * ASIDE + 2 * EDGE
    places = {
        name: (EDGE + (column + 0.5) * ASIDE, tall - levels[name] * STEP)
        for name, column in columns.items()
    }
    parts = _ground(wide, tall) + _edges(edges, places, tall)
    dots = [
        tag("circle", cx=x, cy=y, r=3.5, fill=INK)
        for name, (x, y) in places.items()
        if name != GROUND
    ]
    return Picture(wide, tall + EDGE, shows, "\n".join(parts + dots))


def _levels(edges: list[Edge]) -> tuple[dict[str, int], dict[str, list[str]]]:
    """How many edges each vertex is above the ground, and for each vertex those that it holds.

    What isn't joined to the ground floats: its first vertex is held by the ground, one step up.
    """
    near: dict[str, list[str]] = {GROUND: []}
    for edge in edges:
        near.setdefault(edge.first, []).append(edge.second)
        near.setdefault(edge.second, []).append(edge.first)
    levels = {GROUND: 0}
    children: dict[str, list[str]] = {name: [] for name in near}
    waiting = [GROUND]
    while len(levels) < len(near) or waiting:
        if not waiting:
            loose = next(name for name in near if name not in levels)
            levels[loose] = 1
            children[GROUND].append(loose)
            waiting = [loose]
        holder = waiting.pop(0)
        for name in near[holder]:
            if name not in levels:
                levels[name] = levels[holder] + 1
                children[holder].append(name)
                waiting.append(name)
    return levels, children


def _columns(children: dict[str, list[str]]) -> dict[str, float]:
    """The columns of the vertices: those that hold nothing in turn, and others in their middle."""
    columns: dict[str, float] = {}
    used = 0
    waiting = [(GROUND, False)]
    while waiting:
        name, ready = waiting.pop()
        if not children[name]:
            columns[name] = used
            used += 1
        elif ready:
            held = [columns[child] for child in children[name]]
            columns[name] = (held[0] + held[-1]) / 2
        else:
            waiting.append((name, True))
            waiting.extend((child, False) for child in reversed(children[name]))
    return columns


def _ground(wide: float, tall: float) -> list[str]:
    """The ground: a thick line with short strokes below it."""
    parts = [path((6, tall), (wide - 6, tall), stroke=INK, stroke_width=2)]
    for at in range(int(wide - 12) // 10):
        x = 12 + at * 10
        parts.append(path((x, tall), (x - 6, tall + 7), stroke=INK, stroke_width=0.8))
    return parts


def _edges(edges: list[Edge], places: dict[str, Place], tall: float) -> list[str]:
    """The edges; those with the same ends bow apart, and loops are rings beside their vertex."""
    together: dict[tuple[str, str], list[Edge]] = {}
    for edge in edges:
        together.setdefault(edge.ends, []).append(edge)
    parts = []
    for ends, alike in together.items():
        for at, edge in enumerate(alike):
            colour = COLOURS[edge.colour]
            if ends[0] == ends[1]:
                parts.append(_ring(places[ends[0]], at, colour))
                continue
            start, end = (places[name] for name in ends)
            if ends[0] == GROUND:
                start = (end[0], tall)
            parts.append(_bowed(start, end, at - (len(alike) - 1) / 2, colour))
    return parts


def _ring(place: Place, at: int, colour: str) -> str:
    x, y = place
    radius = 9 + 4 * at
    return tag(
        "circle", cx=x, cy=y - radius, r=radius, fill="none", stroke=colour, stroke_width=4
    )


def _bowed(start: Place, end: Place, bow: float, colour: str) -> str:
    """An edge; it bows by so many times, and where it is level and long it bows over others."""
    (x1, y1), (x2, y2) = start, end
    long = ((x2 - x1) ** 2 + (y2 - y1) ** 2) ** 0.5
    if y1 == y2 and long > 1.5 * ASIDE:
        bow -= long / ASIDE / 2
    aside, up = -(y2 - y1) / long * bow * BOW * 2, (x2 - x1) / long * bow * BOW * 2
    if y1 == y2:
        up = bow * BOW * 2
    x, y = (x1 + x2) / 2 + aside, (y1 + y2) / 2 + up
    way = f"M{x1:.1f},{y1:.1f} Q{x:.1f},{y:.1f} {x2:.1f},{y2:.1f}"
    return tag("path", d=way, fill="none", stroke=colour, stroke_width=4)
