"""A move: who makes it, what it is called, and what it leaves."""
from __future__ import annotations

from dataclasses import dataclass
from typing import TYPE_CHECKING, Optional

from cgcalc.errors import WrongCall

if TYPE_CHECKING:
    from cgcalc.board import Board

LEFT, RIGHT = "L", "R"
PLAYERS = (LEFT, RIGHT)
OTHER = {LEFT: RIGHT, RIGHT: LEFT}


@dataclass(frozen=True)
class Move:
    """A move of a player, with its name and the boards that it leaves.

    Most moves leave one board. One of an octal game may leave two heaps or none, and one of
    Hackenbush may leave no edge.

    >>> from cgcalc import Board
    >>> [move.name for move in Board("Clobber", ("xo|ox",)).moves("L")]
    ['a1-a2', 'a1-b1', 'b2-a2', 'b2-b1']
    >>> Board("Octal", ("0.4", ), 5).moves("R")[0].expression
    'Octal("0.4",1) + Octal("0.4",3)'
    """

    player: str
    name: str
    boards: tuple[Board, ...]

    @property
    def board(self) -> Optional[Board]:
        """The board that the move leaves, or None where it leaves none or two."""
        return self.boards[0] if len(self.boards) == 1 else None

    @property
    def expression(self) -> str:
        """What the move leaves, in the notation."""
        return " + ".join(board.expression for board in self.boards) or "0"

    def __str__(self) -> str:
        return self.name


def check_player(player: str) -> None:
    """Raises WrongCall for what is no player."""
    if player not in PLAYERS:
        raise WrongCall(f"a player is 'L' or 'R', and {player!r} is neither")


class NoPosition(WrongCall):
    """A board whose texts break the rules of its game, so that it has no moves."""
