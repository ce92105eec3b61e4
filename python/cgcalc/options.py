"""Games from their options."""
from __future__ import annotations

from typing import Iterable, Optional, Union

from cgcalc.defaults import shared_session
from cgcalc.definitions import one_meaning
from cgcalc.errors import WrongCall
from cgcalc.exact import exact_number
from cgcalc.game import Game
from cgcalc.operands import Expression, Operand
from cgcalc.session import Session

Options = Union[Expression, Iterable[Expression]]


def game(lefts: Options, rights: Options, *, session: Optional[Session] = None) -> Game:
    """The game in which Left may move to these, and Right to those: a list of games, or one game.

    >>> game([2, "^"], -1), game(0, []).value
    (Game('{2,^|-1}'), Value(name='1'))
    """
    listed = [_listed(side) for side in (lefts, rights)]
    for option in (*listed[0], *listed[1]):
        if isinstance(option, Game):
            session = shared_session(option.own_session, session)
    options = _options("lefts", listed[0], session) + _options("rights", listed[1], session)
    texts, names = one_meaning([(option.expression, option.names) for option in options])
    left, right = ",".join(texts[: len(listed[0])]), ",".join(texts[len(listed[0]) :])
    return Game.of_terms(((False, f"{{{left}|{right}}}"),), session, names)


def _options(side: str, listed: list[Expression], session: Optional[Session]) -> list[Game]:
    """The options of a side as games; what is wrong with one names its place."""
    options = []
    for number, option in enumerate(listed):
        try:
            options.append(option if isinstance(option, Game) else Game(option, session=session))
        except WrongCall as wrong:
            raise WrongCall(f"{side}[{number}]: {wrong}") from None
    return options


def _listed(side: Options) -> list[Expression]:
    """The options of a side, which are a list of games or one game."""
    if isinstance(side, (Operand, str)) or exact_number(side) is not None:
        return [side]  # type: ignore[list-item]
    try:
        return list(side)  # type: ignore[arg-type]
    except TypeError:
        raise WrongCall(f"the options of a side are a list of games, not {side!r}") from None
