"""Moves in sums: a move in one part, which leaves the other parts as they are."""
from __future__ import annotations

from dataclasses import dataclass, replace
from typing import TYPE_CHECKING, Iterable, Optional, Sequence

from cgcalc.errors import Refused
from cgcalc.moves.move import LEFT, OTHER, Move, check_player
from cgcalc.refusals import Refusal
from cgcalc.replies import Failed
from cgcalc.values import Value

if TYPE_CHECKING:
    from cgcalc.board import Board
    from cgcalc.session import Session

Position = tuple[str, ...]


@dataclass(frozen=True)
class SumMove:
    """A move in one part of a sum: its name, the parts that it leaves of that one, and the whole.

    `of_board` is the move on the board, or None where the part is no board.
    """

    player: str
    name: str
    part: int
    leaves: Position
    after: Position
    of_board: Optional[Move] = None

    @property
    def expression(self) -> str:
        """What the move leaves of the part, in the notation."""
        return sum_of(self.leaves)

    def __str__(self) -> str:
        return self.name


class Part:
    """A part of a sum: a board, the negative of one, or any other form.

    >>> Part('-Toads("T.F")').board
    Board(game='Toads', texts=('T.F',), tokens=None)
    """

    def __init__(self, text: str) -> None:
        from cgcalc.board import read_board  # boards have moves, and moves have boards

        self.text = text.strip()
        plain = read_board(self.text)
        negative = read_board(self.text[1:]) if self.text.startswith("-") else None
        self.minus = negative is not None
        self.board: Optional[Board] = plain or negative

    def board_moves(self, player: str) -> list[Move]:
        """The moves of a player on the board; the negative of a board has those of the other."""
        if self.board is None:
            return []
        if not self.minus:
            return self.board.moves(player)
        moves = self.board.moves(OTHER[player])
        return [replace(move, player=player) for move in moves]

    def left_by(self, move: Move) -> Position:
        """The parts that a move of the board leaves."""
        return tuple(("-" if self.minus else "") + board.expression for board in move.boards)


def sum_of(position: Iterable[str]) -> str:
    """The text of a sum.

    >>> sum_of(["^", "{2|-1}"]), sum_of([])
    ('^ + {2|-1}', '0')
    """
    return " + ".join(part for part in position) or "0"


def moves_in(position: Sequence[str], player: str, session: Session) -> list[SumMove]:
    """The moves of a player in a sum, part by part.

    Those of a part that is no board are the options of its canonical form, which is asked.
    """
    check_player(player)
    parts = [Part(text) for text in position]
    forms = [part.text for part in parts if part.board is None]
    values = dict(zip(forms, values_of(forms, session)))
    found: list[SumMove] = []
    for at, part in enumerate(parts):
        made: list[tuple[str, Position, Optional[Move]]]
        if part.board is not None:
            made = [(move.name, part.left_by(move), move) for move in part.board_moves(player)]
        else:
            value = values[part.text]
            options = value.left_options if player == LEFT else value.right_options
            made = [(f"to {option}", _part_of(option), None) for option in options]
        for name, leaves, move in made:
            after = (*position[:at], *leaves, *position[at + 1 :])
            found.append(SumMove(player, name, at, leaves, after, move))
    return found


def values_of(texts: Sequence[str], session: Session) -> list[Value]:
    """The values of expressions, asked in one session; Refused for the first that is refused."""
    lines = [f"value {text}" for text in texts]
    found = []
    for line, reply in zip(lines, session.ask(lines)):
        if isinstance(reply, Refusal):
            raise Refused(line, reply)
        if isinstance(reply, Failed):
            raise reply.error()
        assert isinstance(reply, Value)
        found.append(reply)
    return found


def _part_of(value: Value) -> Position:
    """A form as a part; nothing is left by a move to 0."""
    return () if value.name == "0" else (value.name,)
