"""All moves of a position, with what each leaves, marked; and the computer's choice among them."""
from __future__ import annotations

from fractions import Fraction
from typing import Iterable, Optional, Sequence

from cgcalc.errors import Refused
from cgcalc.explore.asking import Asking
from cgcalc.explore.marks import Marks, brace_check, closed_sum
from cgcalc.explore.positions import Shown, form_of, values_of_moves
from cgcalc.explore.told import Told, told
from cgcalc.moves.judged import DOMINATED, judged_moves
from cgcalc.moves.move import LEFT, PLAYERS, NoPosition
from cgcalc.moves.sums import Part, Position, SumMove, moves_in
from cgcalc.program import CgError
from cgcalc.replies import Reply
from cgcalc.session import Session

MOST_ASKED = 1_200
"""How many moves have their values asked; those of a queen's game on a large board are more."""
RULE = (
    "the computer plays a winning move if there is one, and otherwise the move with the best stop"
    " for it; among equals, the first in the list"
)


class AskingSession(Session):
    """A session for what asks one, whose questions go the request's way.

    `need` is about the greatest share that a question about a board takes.
    """

    def __init__(self, asking: Asking, need: int) -> None:
        limits = asking.limits
        super().__init__(share=limits.share, positions=limits.positions, program="cg")
        self._asking, self._need = asking, need

    def ask(self, lines: Iterable[str], **_: object) -> list[Reply]:
        """The replies."""
        asked = list(lines)
        if any('"' in line for line in asked):  # the text of a board
            return self._asking.ask_alike(asked, self._need)
        return self._asking.ask(asked)


def moves_told(position: Position, asking: Asking) -> Told:
    """What the page shows of the moves of both players."""
    shown = Shown(position, asking)
    session = AskingSession(asking, shown.need)
    try:
        moves = [move for player in PLAYERS for move in moves_in(position, player, session)]
    except (NoPosition, Refused):
        return {"moves": {"L": [], "R": []}, "choice": {}, "checks": [], "rule": RULE}
    asked = moves[:MOST_ASKED] if shown.is_worth_asking else []
    leaves = [closed_sum(move.leaves) for move in asked]
    values = values_of_moves(leaves, asking, shown.need)
    complete = len(asked) == len(moves)
    parts = range(len(position))
    checks = [brace_check(shown, part, asked, values) if complete else "" for part in parts]
    marks = Marks(shown, asked, values, [line for line in checks if line], asking)
    found: dict[str, list[Told]] = {player: [] for player in PLAYERS}
    for at, move in enumerate(moves):
        one = move_told(move)
        if at < len(asked):
            one["value"] = told(values[leaves[at]], f"value {leaves[at]}", asking.limits)
            one.update(marks.of(move))
        found[move.player].append(one)
    choice = {player: chosen(found[player], player) for player in PLAYERS}
    standing = [marks.checked(line) for line in checks]
    return {"moves": found, "choice": choice, "checks": standing, "rule": RULE}


def move_told(move: SumMove) -> Told:
    """A move without what is asked about it."""
    return {
        "name": move.name,
        "part": move.part,
        "leaves": list(move.leaves),
        "after": list(move.after),
    }


def listed(position: Position) -> Told:
    """The moves on the boards of a position, which nothing has to be asked for."""
    found: dict[str, list[Told]] = {player: [] for player in PLAYERS}
    for at, text in enumerate(position):
        part = Part(text)
        for player in PLAYERS:
            try:
                moves = part.board_moves(player)
            except NoPosition:
                moves = []
            for move in moves:
                left = part.left_by(move)
                after = (*position[:at], *left, *position[at + 1 :])
                found[player].append(move_told(SumMove(player, move.name, at, left, after)))
    return {"moves": found}


def chosen(moves: Sequence[Told], player: str) -> Optional[int]:
    """The number of the computer's move, or None where there is none or it isn't known."""
    ranked = []
    for at, move in enumerate(moves):
        if move.get("wins") is None or move.get("stop") is None:
            return None
        stop = Fraction(move["stop"])
        ranked.append((bool(move["wins"]), stop if player == LEFT else -stop, -at))
    return -max(ranked)[2] if ranked else None


def reasons_told(position: Position, asking: Asking) -> Told:
    """Why moves in the parts don't count: for each part and player, by the names of the moves."""
    shown = Shown(position, asking)
    session = AskingSession(asking, shown.need // 4)
    found: list[Told] = []
    for text, value in zip(position, shown.values):
        sides: Told = {}
        if form_of(value) is None:
            found.append({player: {} for player in PLAYERS})
            continue
        for player in PLAYERS:
            try:
                judged = judged_moves((text,), player, session)
            except CgError as error:
                asking.check()
                sides[player] = {"refused": str(error)}
                continue
            sides[player] = {
                other.move.name: {
                    "why": other.why,
                    "by": other.by.name,
                    "word": "by" if other.why == DOMINATED else "through",
                }
                for other in judged.others
            }
        found.append(sides)
    return {"reasons": found}
