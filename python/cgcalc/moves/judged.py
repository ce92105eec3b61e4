"""Which moves count: those of the canonical form, and for each other move why it doesn't."""
from __future__ import annotations

from dataclasses import dataclass
from typing import TYPE_CHECKING, Iterator, Sequence

from cgcalc.moves.move import LEFT, OTHER
from cgcalc.moves.sums import SumMove, moves_in, sum_of, values_of
from cgcalc.program import CgError
from cgcalc.replies import Order

if TYPE_CHECKING:
    from cgcalc.session import Session

DOMINATED, REVERSIBLE = "dominated", "reversible"


@dataclass(frozen=True)
class OtherMove:
    """A move that the canonical form hasn't, and why.

    It is `dominated` by another move, which is at least as good, or `reversible` through an answer
    of the other player's, which leaves that player no worse off than before the move.
    """

    move: SumMove
    why: str
    by: SumMove

    def __str__(self) -> str:
        way = "by" if self.why == DOMINATED else "through"
        return f"{self.move} is {self.why} {way} {self.by}"


@dataclass(frozen=True)
class SensibleMoves:
    """The moves to options of the canonical form, and the `others` with the reason for each."""

    moves: tuple[SumMove, ...]
    others: tuple[OtherMove, ...]

    def __iter__(self) -> Iterator[SumMove]:
        return iter(self.moves)

    def __len__(self) -> int:
        return len(self.moves)


class Judge:
    """Judges the moves of a player on a position, by what the program answers."""

    def __init__(self, position: Sequence[str], player: str, session: Session) -> None:
        self.position, self.player, self.session = tuple(position), player, session
        self.moves = moves_in(position, player, session)
        texts = [sum_of(position), *(sum_of(move.after) for move in self.moves)]
        self.whole, *self.values = values_of(texts, session)
        whole = self.whole
        self.options = whole.left_options if player == LEFT else whole.right_options

    def judged(self) -> SensibleMoves:
        """All moves, judged."""
        names = {option.name for option in self.options}
        keep = tuple(m for m, value in zip(self.moves, self.values) if value.name in names)
        wanting = {value.name for value in self.values} - names
        dominated = self._dominated(sorted(wanting))
        others = [(m, v.name) for m, v in zip(self.moves, self.values) if v.name in wanting]
        answers = self._answers([move for move, name in others if name not in dominated])
        reasons = [
            OtherMove(move, DOMINATED, self._move_to(dominated[name]))
            if name in dominated
            else OtherMove(move, REVERSIBLE, answers[move])
            for move, name in others
        ]
        return SensibleMoves(keep, tuple(reasons))

    def _dominated(self, names: Sequence[str]) -> dict[str, str]:
        """For each of the values the first other one that is better, if there is one.

        Options of the canonical form come first.
        """
        kept = {option.name for option in self.options}
        better = sorted({value.name for value in self.values}, key=lambda name: name not in kept)
        pairs = [(name, other) for name in names for other in better if name != other]
        found: dict[str, str] = {}
        for (name, other), fine in zip(pairs, self._at_least(pairs)):
            if fine:
                found.setdefault(name, other)
        return found

    def _at_least(self, pairs: Sequence[tuple[str, str]]) -> list[bool]:
        """Whether the second game of each pair is at least as good for the player as the first."""
        signs = ("<", "=") if self.player == LEFT else (">", "=")
        replies = self.session.ask([f"compare {one} ; {other}" for one, other in pairs])
        return [isinstance(reply, Order) and reply.sign in signs for reply in replies]

    def _answers(self, moves: Sequence[SumMove]) -> dict[SumMove, SumMove]:
        """For each move the first answer that leaves the other player no worse off than before."""
        pairs = [
            (move, answer)
            for move in moves
            for answer in moves_in(move.after, OTHER[self.player], self.session)
        ]
        texts = [(sum_of(answer.after), self.whole.name) for _, answer in pairs]
        found: dict[SumMove, SumMove] = {}
        for (move, answer), fine in zip(pairs, self._at_least(texts)):
            if fine:
                found.setdefault(move, answer)
        for move in moves:
            if move not in found:
                raise CgError(f"no reason was found why {move} isn't in the canonical form")
        return found

    def _move_to(self, name: str) -> SumMove:
        """The first move to a value."""
        return next(move for move, value in zip(self.moves, self.values) if value.name == name)


def judged_moves(position: Sequence[str], player: str, session: Session) -> SensibleMoves:
    """The moves of a player on a position, those of the canonical form and the others.

    >>> from cgcalc import Session
    >>> found = judged_moves(['Domineering("...|...")'], "L", Session())
    >>> [move.name for move in found], [str(other) for other in found.others]
    (['b1-b2'], ['a1-a2 is dominated by b1-b2', 'c1-c2 is dominated by b1-b2'])
    """
    return Judge(position, player, session).judged()
