"""Replies as the page gets them: plain data, and sentences."""
from __future__ import annotations

from fractions import Fraction
from itertools import accumulate
from typing import Any, Mapping, Optional

from cgcalc.errors import ADVICE
from cgcalc.explore.kept import Limits
from cgcalc.latex import latex_of
from cgcalc.names import with_bars
from cgcalc.refusals import Refusal
from cgcalc.replies import Failed, Outcome, Reply, Stops
from cgcalc.thermographs import Thermograph, Wall
from cgcalc.values import Value

Told = dict[str, Any]

WINNERS = {
    "L": "Left wins, whoever moves first.",
    "R": "Right wins, whoever moves first.",
    "N": "Whoever moves first wins.",
    "P": "Whoever moves first loses.",
}
LIMITED = {
    "positions": "The limit is {positions:,} positions. Try again with four times as much, or start"
    " cg-explore with --positions and a larger number.",
    "full": "The limit is {share:,} cells of the table. Try again with four times as much, or start"
    " cg-explore with --share and a larger number.",
    "failed": "The limits are {seconds:g} seconds and {memory:,} bytes of memory. Try again with"
    " four times as much, or start cg-explore with --timeout and --memory and larger numbers.",
}
LONGEST_NAME = 20_000
DEEPEST_NAME = 60
"""How many braces a name opens at once that is asked about; the program reads some more."""


def told(reply: Reply, line: str, limits: Limits) -> Told:
    """A reply as plain data."""
    if isinstance(reply, (Refusal, Failed)):
        return refusal_told(reply, line, limits)
    if isinstance(reply, Value):
        return value_told(reply)
    if isinstance(reply, Outcome):
        return {"winner": reply.winner, "sentence": WINNERS[reply.winner]}
    if isinstance(reply, Stops):
        return {"left": str(reply.left), "right": str(reply.right)}
    if isinstance(reply, Thermograph):
        return thermograph_told(reply)
    return {"text": str(reply)}


def refusal_told(reply: Any, line: str, limits: Limits) -> Told:
    """A refusal: its kind, its sentence, its place if it has one, and what can be done."""
    found = {"refused": str(reply), "kind": reply.kind, "sentence": reply.explain(line)}
    if isinstance(reply, Refusal):
        found.update(cause=reply.cause, place=reply.place, column=reply.column)
    found["advice"] = advice_on(reply.kind, limits)
    found["more"] = reply.kind in LIMITED
    return found


def advice_on(kind: str, limits: Limits) -> str:
    """What a visitor can do about a refusal."""
    if kind in LIMITED:
        return LIMITED[kind].format(**vars(limits))
    return ADVICE.get(kind, "")


def value_told(value: Value) -> Told:
    """A value: its name as the program writes it, with bars as papers do, and in LaTeX."""
    name = value.name
    if len(name) > LONGEST_NAME:
        return {"name": name, "shown": f"{name[:200]}..", "latex": ""}
    shown = with_bars(name)
    return {"name": name, "shown": shown, "latex": latex_of(shown)}


def thermograph_told(thermograph: Thermograph) -> Told:
    """A thermograph: its numbers, its corners and its picture."""
    return {
        "mean": str(thermograph.mean),
        "temperature": str(thermograph.temperature),
        "left": wall_told(thermograph.left),
        "right": wall_told(thermograph.right),
        "svg": thermograph.svg(height=220),
        "text": str(thermograph),
    }


def wall_told(wall: Wall) -> list[list[str]]:
    """The corners of a wall."""
    return [[str(corner.value), str(corner.temperature)] for corner in wall]


def short_name(reply: Optional[Reply], text: str) -> str:
    """What stands for an expression in further questions: its value, if that can be typed back."""
    if isinstance(reply, Value) and len(reply.name) < LONGEST_NAME:
        if depth_of(reply.name) < DEEPEST_NAME:
            return reply.name
    return text


def depth_of(name: str) -> int:
    """How many braces a name opens at once.

    >>> depth_of("{{2|0}|{0|-2}}"), depth_of("1/2")
    (2, 0)
    """
    steps = ((sign == "{") - (sign == "}") for sign in name)
    return max(accumulate(steps), default=0)


def attains(
    of: Mapping[str, Optional[Thermograph]], name: str, mean: Fraction, t: Fraction, left: bool
) -> bool:
    """Whether a move to a value reaches the wall of a part with this mean at this temperature."""
    thermograph = of.get(name)
    if thermograph is None:
        return False
    walls = thermograph.at(t)
    return (walls.right - t if left else walls.left + t) == mean
