"""Names: what a session sends of them, and what they mean in games."""
from __future__ import annotations

import pickle
from pathlib import Path

import pytest

from cgcalc import (
    Definition,
    Game,
    Refusal,
    Refused,
    Session,
    Value,
    WrongCall,
    default_session,
    game,
    use_session,
)
from cgcalc.definitions import Names, names_of, one_meaning
from tests.places import program

RECORD = 'cat > "$0.last"; exec "$REAL" "$@" < "$0.last"'


@pytest.fixture(name="session")
def fixture_session(tmp_path: Path) -> Session:
    """A session whose runs write down what they read."""
    return Session(share=1_000, program=program(tmp_path, RECORD))


def sent(session: Session) -> list[str]:
    """What the last run read."""
    return Path(f"{session.program}.last").read_text().splitlines()[1:]


def test_old_meanings_of_a_name_are_not_sent(session: Session) -> None:
    for number in range(300):
        assert session.define("g", str(number)) == Value(str(number))
    assert session.ask(["value g"]) == [Value("299")]
    assert sent(session) == ["g := 299", "value g"]


def test_an_old_meaning_is_sent_where_it_is_used(session: Session) -> None:
    for name, text in [("g", "1"), ("h", "g + g"), ("g", "g + 5"), ("other", "7")]:
        session.define(name, text)
    assert session.ask(["value g + h"]) == [Value("8")]
    assert sent(session) == ["g := 1", "h := g + g", "g := g + 5", "value g + h"]
    assert session.ask(["value h"]) == [Value("2")]
    assert sent(session) == ["g := 1", "h := g + g", "value h"]


def test_many_definitions_that_use_each_other_are_answered_by_small_shares() -> None:
    session = Session(share=1_048_576)
    for _ in range(80):
        session.define("g", "g + 1" if session.definitions else "1")
    assert session.ask(["value g"]) == [Value("80")]


def test_a_word_in_quotation_marks_is_no_name(session: Session) -> None:
    session.define("ab", "5")
    assert session.ask(['value Snort("..","ab")']) == [Value("+-1")]
    assert sent(session) == ['value Snort("..","ab")']


def test_a_game_keeps_what_its_names_meant() -> None:
    session = Session()
    session.define("room", "{2|0}")
    g, asked = Game("room", session=session), Game("room + 1", session=session)
    assert g.value == Value("{2|0}")
    session.define("room", "5")
    h = Game("room", session=session)
    assert g.value == Value("{2|0}")
    assert [g.mean, asked.mean, h.mean] == [1, 2, 5]
    assert (g == h, hash(g) == hash(Game("{2|0}")), g < h) == (False, True, True)
    assert (g.compare("room").sign, h.compare("room").sign) == ("<", "=")


def test_games_in_which_a_name_means_two_things_are_added_and_compared() -> None:
    session = Session()
    session.define("room", "{2|0}")
    g = Game("room", session=session)
    session.define("room", "5")
    h = Game("room", session=session)
    assert str(g + h) == "({2|0}) + (5)" and (g + h).mean == 6
    assert str(h - 2 * g) == "(5) - 2.({2|0})" and (h - 2 * g).mean == 3
    assert (g + g).mean == 2 and str(g + g) == "room + room"
    assert game(h, g).stops.left == game(5, "{2|0}").stops.left
    assert session.compare(g, h).sign == "<" and session.proof(h, g).holds
    assert session.mean(g) == 1 and Session().mean(g) == 1


def test_other_sessions_and_processes_know_what_the_names_mean() -> None:
    session = Session()
    session.define("hall", "{2|0}")
    session.define("room", "hall + 1")
    g = Game("room", session=session)
    session.define("hall", "7")
    again = pickle.loads(pickle.dumps(g))
    assert str(again) == "room" and again.mean == 2
    other = Session()
    other.define("room", "*")
    moved = Game(g, session=other)
    assert moved.session is other and moved.mean == 2
    assert again == moved and (again + moved).mean == 4
    assert other.value("room") == Value("*")


def test_names_of_the_default_session() -> None:
    before = default_session()
    session = Session()
    session.define("room", "{4|0}")
    use_session(session)
    try:
        g = Game("room")
        use_session(Session())
        assert g.mean == 2
        with pytest.raises(Refused, match="define the name"):
            assert Game("room").mean
    finally:
        use_session(before)


def test_definitions_that_are_refused() -> None:
    session = Session()
    for name, text, kind, binds in [
        ("a", "{1|", "syntax", False),
        ("b", "nobody", "name", False),
        ("c", 'Clobber("xa")', "board", True),
    ]:
        with pytest.raises(Refused) as caught:
            session.define(name, text)
        assert (caught.value.kind, name in session.definitions) == (kind, binds)
    assert session.bind(Definition("d", "6/3")) == Refusal("range")
    assert list(session.definitions) == ["c", "d"]
    with pytest.raises(WrongCall, match="a name stands for a text"):
        session.define("g", 3)  # type: ignore[arg-type]


def test_two_meanings_that_can_not_stand_in_one_session_are_written_out() -> None:
    one = names_of([Definition("a", "1"), Definition("b", "a")])
    two = one.bind(Definition("a", "2"))
    texts, names = one_meaning([("b + a", one), ("b - a", two)])
    assert (texts, names.bound) == (["((1)) + (1)", "((1)) - (2)"], {})
    old_a, old_b = one.used(["a"]), two.bind(Definition("b", "a + 3")).used(["b"])
    assert one_meaning([("a", old_a), ("b", old_b)])[0] == ["(1)", "((2) + 3)"]


def test_names_that_are_too_long_to_be_written_out() -> None:
    one = Names().bind(Definition("a", "1"))
    for _ in range(40):
        one = one.bind(Definition("a", "a + a"))
    with pytest.raises(WrongCall, match="stands for two games"):
        one_meaning([("a", one), ("a", Names().bind(Definition("a", "2")))])
