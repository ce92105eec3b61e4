"""Positions as the page sends them: the parts of a sum, each a board or another form."""
from __future__ import annotations

from typing import Any, Optional, Sequence

from cgcalc.errors import WrongCall
from cgcalc.explore.asking import BOARD_SHARES, Asking
from cgcalc.explore.told import Told, short_name, told
from cgcalc.moves.sums import Part, Position, sum_of
from cgcalc.refusals import Refusal
from cgcalc.replies import Failed, Reply, Stops
from cgcalc.thermographs import Thermograph
from cgcalc.values import Value

MOST_PARTS = 24
MOST_LETTERS = 20_000


class BadRequest(WrongCall):
    """What is wrong with what a page sent."""


def read_position(data: Any) -> Position:
    """The parts of a position that a page sent.

    >>> read_position(["^", " 1 "])
    ('^', '1')
    """
    if not isinstance(data, list) or len(data) > MOST_PARTS:
        raise BadRequest(f"a position is a list of at most {MOST_PARTS} texts")
    for text in data:
        if not isinstance(text, str) or not text.strip() or len(text) > MOST_LETTERS:
            raise BadRequest("a part of a position is a text, and no blank one")
        if "\n" in text or ";" in text.split('"')[0] or text.strip().startswith("#"):
            raise BadRequest(f"{text!r} is no part of a position")
    return tuple(text.strip() for text in data)


def closed(text: str) -> str:
    """A part as it stands in a sum: in parentheses where it may be a sum itself.

    >>> closed("1 - ^"), closed("{2|-1}"), closed('-Toads("T.F")')
    ('(1 - ^)', '{2|-1}', '-Toads("T.F")')
    """
    part = Part(text)
    if part.board is not None:
        return text
    plain = not (set(text) & set(" +-") or text[:1].isdigit())
    whole = text.startswith("{") and text.endswith("}") and text.count("{") == 1
    return text if plain or whole else f"({text})"


class Shown:
    """A position that is shown: its parts, their values, and the whole."""

    def __init__(self, position: Position, asking: Asking) -> None:
        self.position, self.asking = position, asking
        self.texts = [closed(text) for text in position]
        lines = [f"value {text}" for text in self.texts]
        self.values: list[Reply] = asking.ask(lines, BOARD_SHARES)
        self.need = asking.need

    @property
    def names(self) -> list[str]:
        """What stands for the parts in further questions."""
        return [short_name(reply, text) for reply, text in zip(self.values, self.texts)]

    @property
    def whole(self) -> str:
        """The sum."""
        return sum_of(self.names)

    @property
    def have_values(self) -> list[bool]:
        """Whether the parts have values."""
        return [form_of(reply) is not None for reply in self.values]

    @property
    def is_bad(self) -> bool:
        """Whether a part is refused."""
        return not all(self.have_values)

    @property
    def is_worth_asking(self) -> bool:
        """Whether moves may have values: those of a part that lacks cells often need fewer."""
        bad = [reply for reply in self.values if isinstance(reply, (Refusal, Failed))]
        return all(isinstance(reply, Refusal) and reply.kind == "full" for reply in bad)

    def rest(self, part: int) -> str:
        """The other parts, added up."""
        return sum_of(name for at, name in enumerate(self.names) if at != part)


def position_told(position: Position, asking: Asking) -> Told:
    """What the page shows of a position: its value, who wins, stops, thermograph, and parts."""
    shown = Shown(position, asking)
    parts = [
        part_told(text, asked, reply, asking)
        for text, asked, reply in zip(position, shown.texts, shown.values)
    ]
    found: Told = {"parts": parts, "expression": sum_of(shown.texts)}
    if shown.is_bad:
        return found
    several = len(position) > 1
    questions = {word: f"{word} {shown.whole}" for word in ("value", "outcome", "stops", "thermo")}
    lines = [*questions.values(), *(f"thermo {name}" for name in shown.names if several)]
    replies = asking.ask(lines)
    for word, line, reply in zip(questions, lines, replies):
        found[word] = told(reply, line, asking.limits)
    for part, reply in zip(parts, replies[len(questions) :]):
        if isinstance(reply, Thermograph):
            part["temperature"], part["mean"] = str(reply.temperature), str(reply.mean)
    return found


def part_told(text: str, asked: str, value: Reply, asking: Asking) -> Told:
    """What the page shows of a part: its text, its board taken apart, and its value."""
    part = Part(text)
    found: Told = {"text": text, "minus": part.minus, "game": None}
    if part.board is not None:
        board = part.board
        found.update(game=board.game, texts=list(board.texts), tokens=board.tokens)
    found["value"] = told(value, f"value {asked}", asking.limits)
    if isinstance(value, Refusal):
        found["spot"] = spot_of(value, part, asked)
    return found


def spot_of(refusal: Refusal, part: Part, asked: str) -> Optional[int]:
    """Where in the text of a part a refusal points, counted from 0; None where it doesn't.

    >>> spot_of(Refusal.read("! board edges 3"), Part('Col("..","ac")'), 'Col("..","ac")')
    12
    >>> spot_of(Refusal.read("! syntax 10"), Part("{2|"), "{2|")
    3
    """
    if refusal.column is not None:
        before = len("value ") + (asked != part.text)
        return max(0, min(refusal.column - 1 - before, len(part.text)))
    if part.board is None or refusal.place is None or refusal.cause not in OF_TEXTS:
        return None
    number = len(part.board.texts) - 1 if part.board.game in OF_TEXTS[refusal.cause] else 0
    quotes = [at for at, sign in enumerate(part.text) if sign == '"']
    return quotes[2 * number] + refusal.place


OF_TEXTS = {
    "symbol": ("Strip",),
    "empty": ("Strip",),
    "large": ("Strip",),
    "ragged": (),
    "rules": (),
    "octal": (),
    "edges": ("Col", "Snort"),
}
"""The causes whose place is one of a text, with the games in which that text is the last."""


def values_of_moves(texts: Sequence[str], asking: Asking, need: int) -> dict[str, Reply]:
    """The value of each of the positions that moves lead to, where the one before took a share."""
    different = list(dict.fromkeys(texts))
    lines = [f"value {text}" for text in different]
    return dict(zip(different, asking.ask_alike(lines, need)))


def thermographs(
    names: Sequence[str], replies: Sequence[Reply]
) -> dict[str, Optional[Thermograph]]:
    """The thermograph of each of some expressions, or None where it is refused."""
    return {
        name: reply if isinstance(reply, Thermograph) else None
        for name, reply in zip(names, replies)
    }


def winner_of(reply: Optional[Reply]) -> Optional[str]:
    """Who wins, by an answer to `outcome`; None where it is refused."""
    return getattr(reply, "winner", None)


def stops_of(reply: Optional[Reply]) -> Optional[Stops]:
    """The stops, or None where they are refused."""
    return reply if isinstance(reply, Stops) else None


def form_of(reply: Reply) -> Optional[Value]:
    """The value, or None where it is refused."""
    return reply if isinstance(reply, Value) else None
