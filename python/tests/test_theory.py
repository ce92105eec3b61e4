"""What is worked out in Python from answers, against definitions and textbook values."""
from __future__ import annotations

import sys
from fractions import Fraction
from types import ModuleType
from typing import Any
from unittest import mock
from xml.etree import ElementTree

import pytest

from cgcalc import Game, Session, Value, WrongCall, domineering
from cgcalc.theory import (
    Period,
    cooled,
    heated,
    hottest,
    incentives,
    nim_period,
    nim_sequence,
    ordinal_sum,
    winning_moves,
)
from tests.test_pictures import SVG

GAMES = ["{2|-1}", "{4||2|0}", "^", "*2", "{3|1||0|-2}", "1/2", "{2|0,{1|-1}}", "Tiny(1)"]


@pytest.mark.parametrize("text", GAMES)
def test_cooling_by_little_is_undone_by_heating(text: str) -> None:
    """A hot game cooled by its temperature is its mean and an infinitesimal."""
    game = Game(text)
    assert cooled(text, 0) == game.value
    assert cooled(text, max(game.temperature, Fraction(0)) + 1) == game.mean
    if game.temperature > 0:
        left = Game(cooled(text, game.temperature)) - game.mean
        assert left.temperature <= 0 and left.stops.left == left.stops.right == 0
        assert cooled(text, Fraction(1, 4)) != game.value


def test_cooling_adds_up() -> None:
    one, two = Game("{3|-1}"), Game("{2|0}")
    for tax in (Fraction(1, 2), Fraction(1), Fraction(2)):
        assert Game(cooled(one, tax)) + cooled(two, tax) == Game(cooled(one + two, tax))
    assert heated("*", 1) == Game("+-1") and heated("^", 1).name == "{1|{0|-2}}"
    assert heated(Game("3/4"), 5) == Fraction(3, 4)
    for wrong in (-1, 0.5, "1"):
        with pytest.raises(WrongCall, match="cooled by a number from 0 on"):
            cooled("*", wrong)  # type: ignore[arg-type]


def test_ordinal_sums() -> None:
    assert ordinal_sum("*", "*") == Value("*2") and ordinal_sum(0, "{2|-1}") == Value("{2|-1}")
    assert ordinal_sum(1, 1) == Value("2") and ordinal_sum("*", "-1") == Value("v*")
    assert ordinal_sum("1/2", 1) == Value("3/4")


def test_incentives() -> None:
    found = incentives("*2")
    assert [str(gain.value) for gain in found.left] == ["*2", "*3"]
    assert incentives(2).left[0].value == -1 and incentives(2).right == ()
    assert incentives("{3,1|0}").left[0].value == Game("3 - {3|0}").value


def test_moves_in_sums() -> None:
    parts: list[Any] = ["{2|-1}", "{1|0}", "-1"]
    for player in ("Left", "Right"):
        moves = winning_moves(parts, player)
        for move in moves:
            others = [Game(part) for at, part in enumerate(parts) if at != move.component]
            after = sum(others, Game(move.option))
            assert after >= 0 if player == "Left" else after <= 0
        assert bool(moves) is (sum(map(Game, parts), Game(0)).outcome in ("N", player[0]))
    assert winning_moves([], "Left") == [] and hottest([]) == []
    assert hottest([domineering("..|.."), "{9|0}", 5]) == [1]
    with pytest.raises(WrongCall, match="'Left' or 'Right', not 'L'"):
        winning_moves(["*"], "L")


def test_nim_sequences() -> None:
    session = Session()
    assert nim_sequence("0.137", 10, session=session) == [0, 1, 1, 2, 0, 3, 1, 1, 0, 3]
    assert nim_sequence("0.7", 0) == []
    assert nim_period("0.137", 300) == Period(52, 34)
    assert nim_period("0.07", 300) == Period(53, 34) and nim_period("0.6", 60) is None
    for wrong in (-1, "3", 1.5):
        with pytest.raises(WrongCall, match="counted by a whole number"):
            nim_sequence("0.7", wrong)  # type: ignore[arg-type]


def test_trees() -> None:
    for text, edges in [("{2|-1}", 2), ("{4||2|0}", 4), ("^*", 5), ("3/4", 0)]:
        root = ElementTree.fromstring(Game(text).value.tree_svg(title="a < b"))
        assert len(list(root.iter(f"{SVG}polyline"))) == edges, text
        title = root.find(f"{SVG}title")
        assert title is not None and title.text == "a < b. Canonical form as a tree"
    with pytest.raises(WrongCall, match="more than 500 forms"):
        Value("*20").tree_svg()


def test_tikz() -> None:
    text = Game("{4||2|0}").thermograph.tikz()
    assert r"\draw[thick, blue] (-4,0) -- (-2.5,1.5);" in text
    assert r"\draw[thick, red] (-2,0) -- (-2,1) -- (-2.5,1.5);" in text
    assert r"\node[above] at (-2.5,2.5) {$\frac{5}{2}$};" in text
    number = Game("-3/8").thermograph.tikz()
    assert r"\draw[thick] (0.375,0) -- (0.375,1);" in number and "blue" not in number
    assert number.count("below") == 1 and r"{$-\frac{3}{8}$}" in number


def test_frames_have_a_row_a_board() -> None:
    questions = ["value {board}", "stops {board}", "thermo {board}"]
    table = Session().table(questions, boards=["{2|-1}", "6/3"])
    first, second = table.rows_by_board()
    assert first["board"] == "{2|-1}" and first["value"] == "{2|-1}"
    assert first["stops left"] == 2 and first["thermo mean"] == Fraction(1, 2)
    assert second["value"] == second["stops left"] == second["thermo mean"] == "! range"
    assert second["stops right"] is None and list(second) == list(first)
    pandas: Any = ModuleType("pandas")
    pandas.DataFrame = list
    with mock.patch.dict(sys.modules, pandas=pandas):
        assert table.to_pandas() == [first, second]
