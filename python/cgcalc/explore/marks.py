"""What a move is worth, by what is asked: who wins then, its stop and heat, whether it counts."""
from __future__ import annotations

from fractions import Fraction
from typing import Mapping, Optional, Sequence

from cgcalc.explore.asking import Asking
from cgcalc.explore.positions import (
    Shown,
    closed,
    form_of,
    stops_of,
    thermographs,
    winner_of,
)
from cgcalc.explore.told import Told, attains, short_name
from cgcalc.moves.move import LEFT, PLAYERS
from cgcalc.moves.sums import Position, SumMove, sum_of
from cgcalc.replies import Order, Reply
from cgcalc.thermographs import Thermograph

WINS = {"L": ("L", "P"), "R": ("R", "P")}
"""The outcomes that a player wants to leave behind."""
UNCHECKED = "unchecked"
TRIED = 4
"""How many sums are tried, where the whole is too large, before all are asked."""


def added(first: str, second: str) -> str:
    """The sum of two expressions, without what is 0."""
    return first if second == "0" else second if first == "0" else f"{first} + {second}"


def closed_sum(position: Position) -> str:
    """The parts that are left, as a sum."""
    return sum_of(closed(text) for text in position)


class Marks:
    """What is asked about the moves of a position, for their marks."""

    def __init__(
        self,
        shown: Shown,
        moves: Sequence[SumMove],
        values: Mapping[str, Reply],
        checks: Sequence[str],
        asking: Asking,
    ) -> None:
        self.shown = shown
        self.names = {
            text: short_name(reply, text)
            for text, reply in values.items()
            if form_of(reply) is not None
        }
        self.sums = self._sums(moves, asking)
        sums = list(dict.fromkeys(self.sums.values()))
        parts = [name for name, fine in zip(shown.names, shown.have_values) if fine]
        hot = list(dict.fromkeys([*parts, *self.names.values()])) if moves else []
        lines = [f"{word} {text}" for word in ("outcome", "stops") for text in sums]
        replies = asking.ask([*lines, *(f"thermo {text}" for text in hot), *checks])
        self.winners = dict(zip(sums, replies))
        self.stops = dict(zip(sums, replies[len(sums) :]))
        self.hot = thermographs(hot, replies[2 * len(sums) :])
        self.orders = dict(zip(checks, replies[2 * len(sums) + len(hot) :]))
        self.options = [form_of(reply) for reply in shown.values]

    def _sums(self, moves: Sequence[SumMove], asking: Asking) -> dict[SumMove, str]:
        """For each move the sum that it leaves, where all parts of that have values."""
        if not moves or self._is_too_large(moves, asking):
            return {}
        rests = self._rests(asking)
        found = {}
        for move in moves:
            name, rest = self.names.get(closed_sum(move.leaves)), rests[move.part]
            if name is not None and rest is not None:
                found[move] = added(name, rest)
        return found

    def _is_too_large(self, moves: Sequence[SumMove], asking: Asking) -> bool:
        """Whether the whole is refused, and so are the sums that some of the moves leave."""
        if self.shown.is_bad or winner_of(asking.ask([f"outcome {self.shown.whole}"])[0]):
            return False
        left = [(self.names.get(closed_sum(move.leaves)), move.part) for move in moves]
        sums = [added(name, self.shown.rest(part)) for name, part in left if name is not None]
        some = sums[:: max(len(sums) // TRIED, 1)][:TRIED]
        return not any(map(winner_of, asking.ask([f"outcome {text}" for text in some])))

    def _rests(self, asking: Asking) -> list[Optional[str]]:
        """For each part the other parts, added up, or None where one of them has no value."""
        have = self.shown.have_values
        known = [all(have[:part] + have[part + 1 :]) for part in range(len(have))]
        rests = [self.shown.rest(part) for part in range(len(have))]
        lines = [f"value {rest}" for rest, fine in zip(rests, known) if fine and rest != "0"]
        replies = dict(zip(lines, asking.ask(lines)))
        return [
            short_name(replies.get(f"value {rest}"), rest) if fine else None
            for rest, fine in zip(rests, known)
        ]

    def checked(self, line: str) -> str:
        """How the list of moves of a part stood its check.

        `equal` where the program says so, `unchecked` where it refuses, `wrong` where it differs.
        """
        reply = self.orders.get(line)
        if not isinstance(reply, Order):
            return UNCHECKED
        return "equal" if reply.sign == "=" else "wrong"

    @property
    def hottest(self) -> Optional[Fraction]:
        """The greatest temperature of a part."""
        found = [self.hot.get(name) for name in self.shown.names]
        return max((one.temperature for one in found if one is not None), default=None)

    def of(self, move: SumMove) -> Told:
        """Whether a move wins, its stop, its temperature, whether it is sensible and hottest."""
        text, name = self.sums.get(move, ""), self.names.get(closed_sum(move.leaves), "")
        winner, stops = winner_of(self.winners.get(text)), stops_of(self.stops.get(text))
        left = move.player == LEFT
        hot = self.hot.get(name)
        stop = None if stops is None else str(stops.right if left else stops.left)
        return {
            "winner": winner,
            "wins": None if winner is None else winner in WINS[move.player],
            "stop": stop,
            "temperature": None if hot is None else str(hot.temperature),
            "mean": None if hot is None else str(hot.mean),
            "sensible": self._is_sensible(move, name),
            "hottest": self._is_hottest(move, name),
        }

    def _is_sensible(self, move: SumMove, name: str) -> Optional[bool]:
        value = self.options[move.part]
        if value is None:
            return None
        options = value.left_options if move.player == LEFT else value.right_options
        return name in {option.name for option in options}

    def _is_hottest(self, move: SumMove, name: str) -> bool:
        part: Optional[Thermograph] = self.hot.get(self.shown.names[move.part])
        if part is None or part.temperature != self.hottest or part.temperature <= 0:
            return False
        return attains(self.hot, name, part.mean, part.temperature, move.player == LEFT)


def brace_check(
    shown: Shown, part: int, moves: Sequence[SumMove], values: Mapping[str, Reply]
) -> str:
    """The question whether a part equals the brace of its moves; none where one has no value."""
    if form_of(shown.values[part]) is None:
        return ""
    sides = []
    for player in PLAYERS:
        replies = [
            values[closed_sum(move.leaves)]
            for move in moves
            if move.part == part and move.player == player
        ]
        forms = [form_of(reply) for reply in replies]
        if None in forms:
            return ""
        sides.append(",".join(dict.fromkeys(str(form) for form in forms)))
    return f"compare {shown.names[part]} ; {{{sides[0]}|{sides[1]}}}"
