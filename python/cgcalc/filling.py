"""Answers to questions about many games, asked in one batch."""
from __future__ import annotations

from itertools import combinations
from typing import TYPE_CHECKING, Callable, Hashable, Iterable, Sequence

from cgcalc.definitions import Names, one_meaning
from cgcalc.errors import WrongCall
from cgcalc.operands import text_of
from cgcalc.replies import Failed, Mean, Order, Outcome, Reply, Temperature
from cgcalc.refusals import Refusal
from cgcalc.typed import Comparison

if TYPE_CHECKING:
    from cgcalc.game import Game

WORDS = {
    "value": "value",
    "outcome": "outcome",
    "stops": "stops",
    "mean": "mean",
    "temperature": "temp",
    "thermograph": "thermo",
}
"""What a game is asked for, with the word of the question."""
COMPARE = "compare"
FLIPPED = {"<": ">", ">": "<"}
Take = Callable[[Reply], None]


class Asked:
    """Questions about games, each with the meaning of its names and what takes its answer."""

    def __init__(self) -> None:
        self.by_names: dict[Hashable, tuple[Names, list[tuple[str, Take]]]] = {}

    def add(self, line: str, names: Names, take: Take) -> None:
        """One more question."""
        key = frozenset(names.bound.items())
        self.by_names.setdefault(key, (names, []))[1].append((line, take))


def questions_about(games: Iterable[object], words: Iterable[str]) -> Asked:
    """What is left to ask of games, where some of it is known."""
    from cgcalc.game import Game  # a session fills games, and games have sessions

    listed = list(games)
    for number, game in enumerate(listed):
        if not isinstance(game, Game):
            raise WrongCall(f"games[{number}] is no Game: {game!r}")
    wanted: list[Game] = [game for game in listed if isinstance(game, Game)]
    asked = Asked()
    for word in words:
        if word == COMPARE:
            _ask_orders(wanted, asked)
        elif word in WORDS:
            _ask_answers(wanted, word, asked)
        else:
            raise WrongCall(f"{word!r} is none of {', '.join([*WORDS, COMPARE])}")
    return asked


def _ask_answers(games: list[Game], word: str, asked: Asked) -> None:
    for game in games:
        if not game.knows(word):
            asked.add(f"{WORDS[word]} {game.expression}", game.names, _taker(game, word))


def _taker(game: Game, word: str) -> Take:
    def take(reply: Reply) -> None:
        if not isinstance(reply, (Refusal, Failed)):
            game.learn(word, _answer(reply))

    return take


def _answer(reply: Reply) -> object:
    """What a game gives as its answer."""
    if isinstance(reply, Mean):
        return reply.mean
    if isinstance(reply, Temperature):
        return reply.temperature
    return reply.winner if isinstance(reply, Outcome) else reply


def learn_from_table(
    boards: Sequence[object], templates: Sequence[str], replies: Sequence[Reply]
) -> None:
    """Lets games keep what a table answers of them, board by board."""
    from cgcalc.game import Game  # as above

    names = {f"{word} {{board}}": name for name, word in WORDS.items()}
    for at, reply in enumerate(replies if boards else ()):
        game, template = boards[at // len(templates)], templates[at % len(templates)]
        if isinstance(game, Game) and template in names:
            _taker(game, names[template])(reply)


def _ask_orders(games: list[Game], asked: Asked) -> None:
    for first, second in combinations(games, 2):
        if first is not second and not first.knows_order(second):
            (one, two), names = one_meaning([(g.expression, g.names) for g in (first, second)])
            asked.add(f"compare {one} ; {two}", names, _order_taker(first, second))


def _order_taker(first: Game, second: Game) -> Take:
    def take(reply: Reply) -> None:
        if isinstance(reply, Order):
            one, two = text_of(first), text_of(second)
            first.learn_order(second, Comparison(one, reply.sign, two))
            flipped = FLIPPED.get(reply.sign, reply.sign)
            second.learn_order(first, Comparison(two, flipped, one))

    return take
