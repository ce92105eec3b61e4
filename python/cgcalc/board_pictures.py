"""Pictures of positions: cells in rows, drawings of Hackenbush, graphs and heaps."""
from __future__ import annotations

import re
from math import cos, pi, sin
from typing import TYPE_CHECKING, Callable, Optional

from cgcalc.hackenbush_pictures import hackenbush_picture
from cgcalc.svg import EITHER, INK, LEFT, RIGHT, Number, Picture, path, tag, words

if TYPE_CHECKING:
    from cgcalc.board import Board

CELL = 30
EDGE = 10
MOST_CELLS = 64
MOST_VERTICES = 52
MOST_TOKENS = 200
FILLED = "#8a8f98"
LETTERS = "abcdefghijklmnopqrstuvwxyzABCDEFGHIJKLMNOPQRSTUVWXYZ"
CROWN = "-8,6 -9,-5 -4,0 0,-8 4,0 9,-5 8,6"


def board_picture(board: Board) -> Optional[Picture]:
    """The picture of a position, or None of what is no position."""
    texts = board.texts
    if board.game in ("Col", "Snort"):
        return graph_picture(board.expression, *texts)
    if board.game == "Hackenbush":
        return hackenbush_picture(board.expression, *texts)
    if board.game == "Octal":
        return heap_picture(board.expression, board.tokens or 0)
    drawer = DRAWERS.get(board.game, letter_drawn)
    one_row = board.game in ("Toads", "Strip")
    return cells_picture(board.expression, [texts[-1]] if one_row else texts[0].split("|"), drawer)


def cells_picture(
    shows: str, rows: list[str], drawer: Callable[[str, float, float], str]
) -> Optional[Picture]:
    """Rows of cells, each with what stands in it; None where they are ragged or too many."""
    columns = len(rows[0])
    if not columns or {len(row) for row in rows} != {columns} or columns * len(rows) > MOST_CELLS:
        return None
    parts = []
    for down, row in enumerate(rows):
        for along, symbol in enumerate(row):
            x, y = EDGE + along * CELL, EDGE + down * CELL
            fill = FILLED if symbol == "#" else "white"
            parts.append(
                tag("rect", x=x, y=y, width=CELL, height=CELL, fill=fill, stroke="#555555")
            )
            drawn = "" if symbol in ".#" else drawer(symbol, x + CELL / 2, y + CELL / 2)
            parts.extend([drawn] if drawn else [])
            if symbol not in ".#" and not drawn:
                return None
    width, height = columns * CELL + 2 * EDGE, len(rows) * CELL + 2 * EDGE
    return Picture(width, height, shows, "\n".join(parts))


def stone_drawn(symbol: str, x: float, y: float) -> str:
    """A stone of Left's or of Right's."""
    colour = {"x": LEFT, "o": RIGHT}.get(symbol)
    return tag("circle", cx=x, cy=y, r=CELL * 0.36, fill=colour, stroke=INK) if colour else ""


def amazon_drawn(symbol: str, x: float, y: float) -> str:
    """A stone with a crown."""
    stone = stone_drawn(symbol, x, y)
    place = f"translate({x:g},{y:g}) scale(0.75)"
    return stone and stone + tag("polygon", points=CROWN, fill="white", transform=place)


def toad_drawn(symbol: str, x: float, y: float) -> str:
    """An arrow's head the way that a toad or a frog goes, with its letter."""
    way = {"T": 1, "F": -1}.get(symbol)
    if way is None:
        return ""
    points = [(x - 9 * way, y - 11), (x + 12 * way, y), (x - 9 * way, y + 11)]
    head = path(*points, fill=LEFT if way == 1 else RIGHT, stroke="none")
    return head + _letter(symbol, x - 3 * way, y, "white")


def letter_drawn(symbol: str, x: float, y: float) -> str:
    """The symbol itself."""
    return _letter(symbol, x, y, INK) if symbol.isalpha() else ""


def domino_drawn(symbol: str, x: float, y: float) -> str:
    """Nothing: the cells of Domineering are empty or filled."""
    return ""


DRAWERS: dict[str, Callable[[str, float, float], str]] = {
    "Domineering": domino_drawn,
    "Clobber": stone_drawn,
    "Amazons": amazon_drawn,
    "Toads": toad_drawn,
}


def graph_picture(shows: str, vertices: str, edges: str) -> Optional[Picture]:
    """A graph: a path in a row, and any other with its vertices on a circle."""
    names = LETTERS[: len(vertices)]
    pairs = edges.split(",") if edges else []
    if not re.fullmatch(r"[.xo]{1,52}", vertices):
        return None
    if any(len(pair) != 2 or pair[0] == pair[1] or set(pair) - set(names) for pair in pairs):
        return None
    row = path_of(names, pairs)
    places: dict[str, tuple[float, float]] = {}
    if row:
        places = {name: (26 + 52 * at, 26) for at, name in enumerate(row)}
    else:
        radius = max(34.0, len(names) * 34 / (2 * pi))
        for at, name in enumerate(names):
            turn = 2 * pi * at / len(names)
            places[name] = (radius * (1 + sin(turn)) + 26, radius * (1 - cos(turn)) + 26)
    parts = [
        path(places[pair[0]], places[pair[1]], stroke=INK, stroke_width=1.5) for pair in pairs
    ]
    for name, symbol in zip(names, vertices):
        x, y = places[name]
        fill = {".": "white", "x": LEFT, "o": RIGHT}[symbol]
        parts.append(tag("circle", cx=x, cy=y, r=12, fill=fill, stroke=INK))
        parts.append(_letter(name, x, y, INK if symbol == "." else "white"))
    width, height = (max(place[axis] for place in places.values()) + 26 for axis in (0, 1))
    return Picture(width, height, shows, "\n".join(parts))


def path_of(names: str, pairs: list[str]) -> str:
    """The vertices in the order of a path, where the graph is one; else nothing.

    >>> path_of("abc", ["ac", "cb"]), path_of("abc", ["ab", "bc", "ca"])
    ('acb', '')
    """
    near: dict[str, set[str]] = {name: set() for name in names}
    for pair in pairs:
        near[pair[0]].add(pair[1])
        near[pair[1]].add(pair[0])
    ends = [name for name in names if len(near[name]) < 2]
    row = ends[:1]
    while row:
        beyond = near[row[-1]] - set(row)
        if len(beyond) != 1:
            break
        row.extend(beyond)
    return "".join(row) if len(row) == len(names) else ""


def heap_picture(shows: str, tokens: int) -> Optional[Picture]:
    """A heap: ten tokens in a row, the last row on top."""
    if tokens > MOST_TOKENS:
        return None
    rows = -(-tokens // 10)
    height = rows * 14 + 2 * EDGE + 6
    parts = [path((EDGE, height - EDGE), (EDGE + 144, height - EDGE), stroke=INK, stroke_width=1.5)]
    for at in range(tokens):
        x, y = EDGE + 9 + 14 * (at % 10), height - EDGE - 8 - 14 * (at // 10)
        parts.append(tag("circle", cx=x, cy=y, r=6, fill=EITHER, stroke=INK))
    return Picture(144 + 2 * EDGE, height, shows, "\n".join(parts))


def _letter(letter: str, x: Number, y: Number, colour: str) -> str:
    return words(letter, x, y + 4.5, text_anchor="middle", fill=colour, font_weight="bold")
