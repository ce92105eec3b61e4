"""The positions that a certificate lists: pieces of Domineering, whole boards of other games."""
from __future__ import annotations

from dataclasses import dataclass
from typing import Callable, Hashable, Iterable, TypeVar

from cgcalc.board import Board
from cgcalc.certify_expressions import Position
from cgcalc.errors import WrongCall
from cgcalc.moves import LEFT, RIGHT

MOST_POSITIONS = 40_000
MOST_COUNTED = 200_000
TOO_MANY = f"a table has at most {MOST_POSITIONS}"
KNOWN_GAMES = ("Domineering", "Clobber", "Toads", "Strip")
Cell = tuple[int, int]
Piece = tuple[Cell, ...]
Thing = TypeVar("Thing", bound=Hashable)


@dataclass(frozen=True)
class Listed:
    """A position with its text, each listed behind those that follow from it."""

    expression: str
    position: Position


def reached(starts: Iterable[Thing], after: Callable[[Thing], Iterable[Thing]]) -> list[Thing]:
    """All that play can come to, each behind what follows from it.

    >>> reached([3], lambda n: range(n))
    [0, 1, 2, 3]
    """
    order: dict[Thing, None] = {}
    lists: dict[Thing, list[Thing]] = {}
    waiting = list(starts)
    while waiting:
        last = waiting[-1]
        if last not in lists:
            lists[last] = list(after(last))
            if len(lists) > MOST_COUNTED:
                raise WrongCall(f"the boards have more than {MOST_COUNTED} positions: {TOO_MANY}")
            waiting += [thing for thing in lists[last] if thing not in lists]
        else:
            order[waiting.pop()] = None
    if len(order) > MOST_POSITIONS:
        raise WrongCall(f"the boards have {len(order)} positions: {TOO_MANY}")
    return list(order)


def cells_of(text: str) -> Piece:
    """The empty cells of a Domineering board."""
    return tuple(
        (row, column)
        for row, symbols in enumerate(text.split("|"))
        for column, symbol in enumerate(symbols)
        if symbol == "."
    )


def pieces_of(cells: Iterable[Cell]) -> list[Piece]:
    """The sets of empty cells that hang together, each moved to the corner.

    >>> pieces_of([(0, 0), (1, 2), (2, 2)])
    [((0, 0),), ((0, 0), (1, 0))]
    """
    left = dict.fromkeys(cells)
    found = []
    while left:
        front = [next(iter(left))]
        del left[front[0]]
        for row, column in front:
            for down, right in ((1, 0), (-1, 0), (0, 1), (0, -1)):
                near = (row + down, column + right)
                if near in left:
                    del left[near]
                    front.append(near)
        top, side = min(row for row, _ in front), min(column for _, column in front)
        found.append(tuple(sorted((row - top, column - side) for row, column in front)))
    return found


def pieces_after(piece: Piece) -> list[Piece]:
    """The pieces after each move of a player in a piece."""
    cells = set(piece)
    found = []
    for row, column in piece:
        for other in ((row + 1, column), (row, column + 1)):
            if other in cells:
                found += pieces_of(cell for cell in piece if cell not in ((row, column), other))
    return found


def text_of_piece(piece: Piece) -> str:
    """The smallest board with a piece.

    >>> text_of_piece(((0, 0), (1, 0), (1, 1)))
    '.#|..'
    """
    rows, columns = max(row for row, _ in piece) + 1, max(column for _, column in piece) + 1
    cells = set(piece)
    return "|".join(
        "".join("." if (row, column) in cells else "#" for column in range(columns))
        for row in range(rows)
    )


def boards_after(position: Position) -> list[Position]:
    """The positions after each move of a player."""
    board = Board(position.game, position.texts)
    found = []
    for player in (LEFT, RIGHT):
        for move in board.moves(player):
            found += [Position(after.game, after.texts) for after in move.boards]
    return found


def check_known(position: Position) -> None:
    """Raises WrongCall if the theory has no rules of a game."""
    if position.game not in KNOWN_GAMES:
        known = ", ".join(KNOWN_GAMES)
        raise WrongCall(f"the theory has no rules of {position.game}, only those of {known}")
