"""Answers about many games in one batch: filling, sorting, pickling."""
from __future__ import annotations

import pickle
import random
from fractions import Fraction
from pathlib import Path
from unittest import mock

import pytest

from cgcalc import Game, Refused, Session, Value, WrongCall, domineering
from tests.places import program

COUNT = 'echo >> "$0.runs"; exec "$REAL" "$@"'


@pytest.fixture(name="session")
def fixture_session(tmp_path: Path) -> Session:
    """A session that counts its runs."""
    return Session(program=program(tmp_path, COUNT))


def runs(session: Session) -> int:
    """How many runs were made."""
    noted = Path(f"{session.program}.runs")
    return len(noted.read_text()) if noted.exists() else 0


def boards(session: Session, count: int) -> list[Game]:
    """Random boards."""
    draw = random.Random(3)
    cells = ["".join(draw.choice("...#") for _ in range(6)) for _ in range(count)]
    return [domineering(f"{row[:3]}|{row[3:]}", session=session) for row in cells]


def test_what_is_filled_is_what_would_be_asked(session: Session) -> None:
    games = boards(session, 20)
    words = ["value", "outcome", "stops", "mean", "temperature", "thermograph"]
    session.fill(games, *words)
    asked = runs(session)
    assert asked <= 3
    alone = Session()
    for game in games:
        other = Game(game.expression, session=alone)
        for word in words:
            assert game.knows(word) and not other.knows(word)
            assert getattr(game, word) == getattr(other, word), (game, word)
    assert runs(session) == asked
    session.fill(games, *words)
    session.fill([])
    assert runs(session) == asked


def test_sorting(session: Session) -> None:
    games = [Game(Fraction(number, 4), session=session) for number in range(40)]
    random.Random(1).shuffle(games)
    session.fill(games, "compare")
    asked = runs(session)
    assert asked <= 1 + session.processes
    assert [str(game) for game in sorted(games)] == [str(Fraction(at, 4)) for at in range(40)]
    assert games[0].compare(games[1]).left == str(games[0])
    assert games[1].compare(games[0]).sign in "<>" and runs(session) == asked


def test_names_of_several_meanings(session: Session) -> None:
    session.define("g", "1")
    old = Game("g + ^", session=session)
    session.define("g", "2")
    new = Game("g + ^", session=session)
    session.fill([old, new, old], "value", "compare")
    asked = runs(session)
    assert (old.value, new.value) == (Value("1^"), Value("2^"))
    assert old < new and not old > new and new.compare(old).sign == ">"
    assert runs(session) == asked


def test_refusals_raise_when_they_are_asked(session: Session) -> None:
    good, bad = Game("1", session=session), Game("6/3", session=session)
    session.fill([good, bad])
    assert good.knows("value") and not bad.knows("value")
    with pytest.raises(Refused, match="a number is out of range"):
        assert bad.value


def test_wrong_calls(session: Session) -> None:
    with pytest.raises(WrongCall, match=r"games\[1\] is no Game: '1'"):
        session.fill([Game(1), "1"])
    with pytest.raises(WrongCall, match="'temp' is none of value, outcome"):
        session.fill([Game(1)], "temp")


def test_answers_are_pickled_with_games(session: Session) -> None:
    games = boards(session, 10)
    session.fill(games, "value", "mean")
    assert games[0].compare(games[1]).sign in ("<", ">", "=", "||")
    again = pickle.loads(pickle.dumps(games))
    with mock.patch("cgcalc.session.Session._batch", side_effect=AssertionError):
        assert [game.value for game in again] == [game.value for game in games]
        assert [game.mean for game in again] == [game.mean for game in games]
        assert len({*games, *again}) == len(set(games))
        assert games[0].compare(games[1]) == again[0].compare(again[1])


def test_games_keep_what_a_table_answers(session: Session) -> None:
    session.define("g", "1")
    old = Game("g + ^", session=session)
    session.define("g", "2")
    games = [old, Game("g", session=session), *boards(session, 3)]
    table = session.table(["value {board}", "temp {board}", "mean {board} + 1"], boards=games)
    asked = runs(session)
    assert [table.row(at)[:2] for at in (0, 1)] == [["(1) + ^", "1^"], ["g", "2"]]
    for game in games:
        assert game.knows("value") and game.knows("temperature") and not game.knows("mean")
        assert str(game.value) == table.row(games.index(game))[1]
    assert runs(session) == asked


def test_a_single_answer_lays_out_a_small_table(session: Session, tmp_path: Path) -> None:
    noting = program(tmp_path, 'echo "$@" >> "$0.words"; exec "$REAL" "$@"')
    alone = Session(share=1_048_576, program=noting)
    assert alone.value("{2|0}") == Value("{2|0}")
    assert (tmp_path / "program.words").read_text().split()[:2] == ["--cells", "1024"]
