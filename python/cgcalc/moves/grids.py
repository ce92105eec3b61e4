"""Moves on rows of cells: Domineering, Clobber, Amazons, and Toads and Frogs.

A board is a list of rows. A move is told as a name and the cells that it changes.
"""
from __future__ import annotations

from typing import Callable, Iterator

from cgcalc.moves.move import LEFT, NoPosition

Place = tuple[int, int]
Changes = dict[Place, str]
Made = tuple[str, Changes]

SYMBOLS = {"Domineering": ".#", "Clobber": ".xo", "Amazons": ".xo#", "Toads": ".TF"}
MOST_CELLS = 64
SIDES = ((-1, 0), (1, 0), (0, -1), (0, 1))
WAYS = tuple((down, right) for down in (-1, 0, 1) for right in (-1, 0, 1) if down or right)
LETTERS = "abcdefghijklmnopqrstuvwxyz"


class Cells:
    """Rows of cells, each with a symbol."""

    def __init__(self, rows: list[str]) -> None:
        self.rows = rows
        self.columns = len(rows[0])

    def places(self) -> Iterator[Place]:
        """All places, row by row."""
        for down in range(len(self.rows)):
            for right in range(self.columns):
                yield down, right

    def at(self, place: Place) -> str:
        """The symbol at a place; outside of the board there is none."""
        down, right = place
        inside = 0 <= down < len(self.rows) and 0 <= right < self.columns
        return self.rows[down][right] if inside else ""

    def along(self, start: Place, way: Place) -> Iterator[Place]:
        """The empty cells that follow each other from a place that way."""
        there = start[0] + way[0], start[1] + way[1]
        while self.at(there) == ".":
            yield there
            there = there[0] + way[0], there[1] + way[1]

    def changed(self, changes: Changes) -> Cells:
        """The board with other symbols at some places."""
        rows = [list(row) for row in self.rows]
        for (down, right), symbol in changes.items():
            rows[down][right] = symbol
        return Cells(["".join(row) for row in rows])

    def text(self) -> str:
        """The board as a text."""
        return "|".join(self.rows)


def read_cells(game: str, text: str) -> Cells:
    """The board of a text; NoPosition where it is none."""
    rows = [text] if game == "Toads" else text.split("|")
    good = rows[0] and len({len(row) for row in rows}) == 1 and len("".join(rows)) <= MOST_CELLS
    if not good or set("".join(rows)) - set(SYMBOLS[game]):
        raise NoPosition(f"{text!r} is no board of {game}: its value tells what is wrong")
    return Cells(rows)


def cell_name(place: Place) -> str:
    """A cell's name: the letter of its column from the left, and the number of its row from above.

    >>> cell_name((0, 0)), cell_name((2, 1)), cell_name((0, 27))
    ('a1', 'b3', 'ab1')
    """
    down, right = place
    again, letter = divmod(right, len(LETTERS))
    return (LETTERS[again - 1] if again else "") + f"{LETTERS[letter]}{down + 1}"


def grid_moves(game: str, text: str, player: str) -> list[tuple[str, str]]:
    """The moves on a board in rising order of the texts that they lead to, each with its name."""
    cells = read_cells(game, text)
    found = {cells.changed(changes).text(): name for name, changes in RULES[game](cells, player)}
    return [(found[after], after) for after in sorted(found)]


def domineering(cells: Cells, player: str) -> Iterator[Made]:
    """Left fills two empty cells, one above the other, and Right two side by side."""
    way = (1, 0) if player == LEFT else (0, 1)
    for place in cells.places():
        other = place[0] + way[0], place[1] + way[1]
        if cells.at(place) == "." and cells.at(other) == ".":
            yield f"{cell_name(place)}-{cell_name(other)}", {place: "#", other: "#"}


def clobber(cells: Cells, player: str) -> Iterator[Made]:
    """A stone moves onto one of the other player's beside it, which is removed."""
    own, other = ("x", "o") if player == LEFT else ("o", "x")
    for place in cells.places():
        for down, right in SIDES:
            there = place[0] + down, place[1] + right
            if cells.at(place) == own and cells.at(there) == other:
                yield f"{cell_name(place)}-{cell_name(there)}", {place: ".", there: own}


def amazons(cells: Cells, player: str) -> Iterator[Made]:
    """A queen moves along empty cells, then shoots from there along empty cells."""
    own = "x" if player == LEFT else "o"
    for place in cells.places():
        if cells.at(place) != own:
            continue
        for there in queen_reach(cells, place):
            moved = {place: ".", there: own}
            name = f"{cell_name(place)}-{cell_name(there)}"
            for arrow in queen_reach(cells.changed(moved), there):
                yield f"{name}/{cell_name(arrow)}", {**moved, arrow: "#"}


def queen_reach(cells: Cells, place: Place) -> Iterator[Place]:
    """The cells that a queen, or its arrow, may reach from a place."""
    for way in WAYS:
        yield from cells.along(place, way)


def toads(cells: Cells, player: str) -> Iterator[Made]:
    """A toad goes to the right, and a frog to the left: one step, or over one of the others."""
    own, other, way = ("T", "F", 1) if player == LEFT else ("F", "T", -1)
    for place in cells.places():
        if cells.at(place) != own:
            continue
        near, far = (0, place[1] + way), (0, place[1] + 2 * way)
        if cells.at(near) == ".":
            yield f"{place[1] + 1}-{near[1] + 1}", {place: ".", near: own}
        elif cells.at(near) == other and cells.at(far) == ".":
            yield f"{place[1] + 1}-{far[1] + 1}", {place: ".", far: own}


RULES: dict[str, Callable[[Cells, str], Iterator[Made]]] = {
    "Domineering": domineering,
    "Clobber": clobber,
    "Amazons": amazons,
    "Toads": toads,
}
