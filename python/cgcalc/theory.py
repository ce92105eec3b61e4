"""What follows from answers: incentives, good moves in sums, cooling, ordinal sums, nim sequences.

All of this is worked out in Python from the program's answers. It is tested, not proved.
"""
from __future__ import annotations

from dataclasses import dataclass
from fractions import Fraction
from typing import Callable, Iterable, Optional, Sequence, Union

from cgcalc.boards import octal
from cgcalc.defaults import default_session
from cgcalc.errors import WrongCall
from cgcalc.exact import exact_number, whole_number
from cgcalc.game import Game
from cgcalc.operands import Expression
from cgcalc.session import Session
from cgcalc.values import Value

WINS = {"Left": ("L", "P"), "Right": ("R", "P")}
"""Outcomes of what a player moves to in which that player wins: the other one is to move."""
NIMBER_OF = {"0": 0, "*": 1}
Number = Union[int, Fraction]


@dataclass(frozen=True)
class Incentives:
    """What each player gains by moves: no gain of one's own is at most another of one's own."""

    left: tuple[Game, ...]
    right: tuple[Game, ...]


def incentives(game: Expression, *, session: Optional[Session] = None) -> Incentives:
    """The incentives of a game: G^L - G for Left's options of the canonical form, G - G^R for
    Right's, without dominated ones. Worked out in Python: not proved.

    >>> found = incentives("{2|-1}")
    >>> [gain.value.name for gain in found.left], [gain.value.name for gain in found.right]
    (['{3|0}'], ['{3|0}'])
    """
    whole = Game(game, session=session)
    form = Game(whole.value, session=whole.own_session)
    left = [Game(option) - form for option in whole.value.left_options]
    right = [form - Game(option) for option in whole.value.right_options]
    return Incentives(tuple(_greatest(left)), tuple(_greatest(right)))


def _greatest(games: list[Game]) -> list[Game]:
    """The games that are at most none of the others, one of each value."""
    if not games:
        return []
    games[0].session.fill(games, "value")
    different = list({game.value: game for game in games}.values())
    different[0].session.fill(different, "compare")
    return [one for one in different if not any(one < other for other in different)]


@dataclass(frozen=True)
class SumMove:
    """A move in a sum: the number of the component, from 0, and what the player moves to there."""

    component: int
    option: Game


def winning_moves(
    games: Iterable[Expression], player: str, *, session: Optional[Session] = None
) -> list[SumMove]:
    """The moves in a sum of games by which a player, `Left` or `Right`, wins. The options are those
    of the components' canonical forms. Worked out in Python: not proved.

    >>> moves = winning_moves(["{2|-1}", "{1|0}", "-1"], "Left")
    >>> [(move.component, str(move.option)) for move in moves]
    [(0, '2')]
    """
    if player not in WINS:
        raise WrongCall(f"a player is 'Left' or 'Right', not {player!r}")
    components = [Game(game, session=session) for game in games]
    asked = components[0].session if components else session or default_session()
    asked.fill(components, "value")
    moves = []
    for number, component in enumerate(components):
        value = component.value
        options = value.left_options if player == "Left" else value.right_options
        moves += [SumMove(number, Game(option, session=session)) for option in options]
    sums = [_after(components, move) for move in moves]
    asked.fill(sums, "outcome")
    return [move for move, after in zip(moves, sums) if after.outcome in WINS[player]]


def _after(components: Sequence[Game], move: SumMove) -> Game:
    """The sum after a move."""
    others = [Game(c.value) for at, c in enumerate(components) if at != move.component]
    return sum(others, move.option)


def hottest(games: Iterable[Expression], *, session: Optional[Session] = None) -> list[int]:
    """The numbers of the components of a sum that have the highest temperature, from 0. To move in
    one of them is a good rule, and not always best. Worked out in Python: not proved.

    >>> hottest(["{2|-1}", "{1|0}", "{3|0}"])
    [0, 2]
    """
    components = [Game(game, session=session) for game in games]
    if components:
        (session or components[0].session).fill(components, "temperature")
    temperatures = [game.temperature for game in components]
    return [at for at, one in enumerate(temperatures) if one == max(temperatures)]


def cooled(game: Expression, t: Number, *, session: Optional[Session] = None) -> Value:
    """A game cooled by t, from 0 on: a game that is colder than t becomes its mean, and another one
    {G^L cooled - t | G^R cooled + t}. Worked out in Python over the options: not proved.

    >>> cooled("{4||2|0}", 1), cooled("{4||2|0}", 2)
    (Value(name='{3|2*}'), Value(name='5/2'))
    """
    given = exact_number(t)
    if given is None or given < 0:
        raise WrongCall(f"a game is cooled by a number from 0 on, not by {t!r}")
    tax: Fraction = given

    def made(form: Game, lefts: Sequence[str], rights: Sequence[str]) -> str:
        if form.temperature < tax:
            return str(form.mean)
        left = ",".join(f"{option} - {tax}" for option in lefts)
        right = ",".join(f"{option} + {tax}" for option in rights)
        return f"{{{left}|{right}}}"

    return _by_options(Game(game, session=session), made, ("thermograph",))


def heated(game: Expression, t: Expression, *, session: Optional[Session] = None) -> Value:
    """A game heated by t: a number stays, and another one becomes
    {G^L heated + t | G^R heated - t}. Worked out in Python over the options: not proved.

    >>> heated("*", 2), heated("{1|0}", "1/2")
    (Value(name='+-2'), Value(name='{3/2|-1/2}'))
    """
    warmth = Game(t, session=session)

    def made(form: Game, lefts: Sequence[str], rights: Sequence[str]) -> str:
        if form.value.number is not None:
            return str(form.value)
        left = ",".join(f"{option} + ({warmth})" for option in lefts)
        right = ",".join(f"{option} - ({warmth})" for option in rights)
        return f"{{{left}|{right}}}"

    return _by_options(Game(game, session=session), made)


def ordinal_sum(
    base: Expression, top: Expression, *, session: Optional[Session] = None
) -> Value:
    """The ordinal sum base:top, in which a move in the base ends the top, with the base in its
    canonical form. Worked out in Python over the options of the top: not proved.

    >>> ordinal_sum("*", 1), ordinal_sum(1, "-1")
    (Value(name='^*'), Value(name='1/2'))
    """
    below = Game(base, session=session).value
    lefts = [str(option) for option in below.left_options]
    rights = [str(option) for option in below.right_options]

    def made(form: Game, tops_left: Sequence[str], tops_right: Sequence[str]) -> str:
        return f"{{{','.join([*lefts, *tops_left])}|{','.join([*rights, *tops_right])}}}"

    return _by_options(Game(top, session=session), made)


Made = Callable[[Game, Sequence[str], Sequence[str]], str]


def _by_options(game: Game, made: Made, needs: Sequence[str] = ()) -> Value:
    """What a rule makes of a game, from what it makes of the options of its canonical form.

    Games of one birthday are asked in one batch, the earliest first.
    """
    days: dict[int, dict[str, Value]] = {}
    left = [game.value]
    seen = {game.value.name}
    while left:
        value = left.pop()
        days.setdefault(value.birthday, {})[value.name] = value
        for option in (*value.left_options, *value.right_options):
            if option.name not in seen:
                seen.add(option.name)
                left.append(option)
    found: dict[str, str] = {}
    for day in sorted(days):
        forms = {name: Game(value, session=game.own_session) for name, value in days[day].items()}
        if needs:
            game.session.fill(forms.values(), *needs)
        results = {name: _one(form, made, found, game) for name, form in forms.items()}
        game.session.fill(results.values(), "value")
        found.update((name, result.value.name) for name, result in results.items())
    return Value.told(found[game.value.name])


def _one(form: Game, made: Made, found: dict[str, str], game: Game) -> Game:
    """What a rule makes of one form, where it is known what it makes of the options."""
    lefts = [found[option.name] for option in form.value.left_options]
    rights = [found[option.name] for option in form.value.right_options]
    return Game(made(form, lefts, rights), session=game.own_session)


def nim_sequence(code: str, count: int, *, session: Optional[Session] = None) -> list[int]:
    """The nimbers of the heaps of 0, 1, 2 .. tokens of an octal game, so many of them.

    >>> nim_sequence("0.77", 12)
    [0, 1, 2, 3, 1, 4, 3, 2, 1, 4, 2, 6]
    """
    heaps = whole_number(count)
    if heaps is None or heaps < 0:
        raise WrongCall(f"the heaps are counted by a whole number, not by {count!r}")
    games = [octal(code, tokens, session=session) for tokens in range(heaps)]
    if games:
        games[0].session.fill(games, "value")
    return [_nimber(game.value) for game in games]


def _nimber(value: Value) -> int:
    return NIMBER_OF[value.name] if value.name in NIMBER_OF else int(value.name[1:])


@dataclass(frozen=True)
class Period:
    """How a nim sequence repeats: from the heap `start` on, every `length` heaps."""

    start: int
    length: int


def nim_period(
    code: str, count: int = 1_001, *, session: Optional[Session] = None
) -> Optional[Period]:
    """The period of an octal game, where so many heaps show it for good: the sequence repeats from
    `start` on, as far as 2 start + 2 length + the number of the code's digits. None where they
    don't. Worked out in Python: not proved.

    >>> nim_period("0.77", 300), nim_period("0.3", 20), nim_period("0.77", 100)
    (Period(start=71, length=12), Period(start=0, length=2), None)
    """
    sequence = nim_sequence(code, count, session=session)
    digits = len(code.partition(".")[2])
    for length in range(1, len(sequence) // 2 + 1):
        start = len(sequence) - length
        while start and sequence[start - 1] == sequence[start - 1 + length]:
            start -= 1
        if 2 * start + 2 * length + digits <= len(sequence):
            return Period(start, length)
    return None


__all__ = [
    "Incentives",
    "Period",
    "SumMove",
    "cooled",
    "heated",
    "hottest",
    "incentives",
    "nim_period",
    "nim_sequence",
    "ordinal_sum",
    "winning_moves",
]
