"""Games as objects: how they are made, added, compared and asked."""
from __future__ import annotations

import copy
import pickle
import tempfile
import unittest
from fractions import Fraction
from pathlib import Path
from typing import Callable

from cgcalc import (
    CgError,
    Comparison,
    Game,
    Refused,
    Session,
    Stops,
    Value,
    WrongCall,
    default_session,
    domineering,
    game,
    octal,
    use_session,
)
from tests.places import program

ATOMS = ["3", "-3", "1/2", "^", "v3", "*2", "2^*", "-2^", "1 - ^", "{2|-1}", "+-1", "{0|*}^", "-*"]
ATOMS += ['Clobber("xxo")', "(1 + *)", "2.{1|0}", "-2.^*", "- 2^", "Tiny(2)", "+-1^", "0"]


class Made(unittest.TestCase):
    """Games from texts, numbers, values and games."""

    def test_texts(self) -> None:
        for made_of, text in [
            (" 2 + ^ ", "2 + ^"),
            (7, "7"),
            (Fraction(-3, 2), "-3/2"),
            (Value("{2|-1}"), "{2|-1}"),
            (Game("*"), "*"),
            ("(1 + ^)", "1 + ^"),
        ]:
            self.assertEqual(Game(made_of).expression, text)  # type: ignore[arg-type]
            self.assertEqual(repr(Game(made_of)), f"Game({text!r})")  # type: ignore[arg-type]

    def test_sums_mean_what_their_parts_mean(self) -> None:
        """A sum, a difference and a negative equal the same of the texts in parentheses."""
        asked: list[tuple[str, str]] = []
        for first in ATOMS:
            one = Game(first)
            asked += [(str(-one), f"0 - ({first})"), (str(-(-one)), first)]
            asked += [(str(count * one), f"{count}.({first})") for count in (0, 1, 3)]
            asked += [(str(one * -2), f"-(2.({first}))"), (str(2 * -one), f"0 - (2.({first}))")]
            for second in ATOMS:
                two = Game(second)
                asked.append((str(one + two), f"({first}) + ({second})"))
                asked.append((str(two - one), f"({second}) - ({first})"))
                asked.append((str(-(two - one) + 1), f"1 + (({first}) - ({second}))"))
                asked.append((str(game([one, 2], two)), f"{{{first},2|{second}}}"))
        orders = Session(share=4_096).ask(f"compare {got} ; {meant}" for got, meant in asked)
        for (got, meant), order in zip(asked, orders):
            self.assertEqual(str(order), "=", f"{got} ; {meant}")

    def test_how_sums_are_written(self) -> None:
        g = Game("{2|-1}")
        for made, text in [
            (g + 1 - Game("^"), "{2|-1} + 1 - ^"),
            (1 - g, "1 - {2|-1}"),
            (sum([g, g]), "{2|-1} + {2|-1}"),
            (-(g - 1), "-{2|-1} + 1"),
            (-Game("2^"), "-(2^)"),
            (2 * (g + 1), "2.({2|-1} + 1)"),
            (-3 * Game("^"), "-(3.^)"),
            (g - g + 0, "{2|-1} - {2|-1}"),
            (Game(0) + 0, "0"),
            (game([], []), "{|}"),
            (game(["1", g + 1], 0), "{1,{2|-1} + 1|0}"),
            (+g, "{2|-1}"),
        ]:
            self.assertEqual(str(made), text)

    def test_long_sums_stay_flat(self) -> None:
        total = Game(0)
        for _ in range(200):
            total = 1 - (total - Game("*"))
        self.assertEqual(total.value, Value("0"))

    def test_a_text_can_not_break_out(self) -> None:
        for text in ("1) + (2", "1}", "{1)", 'Toads("T.F") ; "', '"', "(1"):
            with self.assertRaisesRegex(WrongCall, "don't match|isn't one expression"):
                Game(text)
        for text in ("1 ; 2", "1,2", "1|2", "g := 1", "{1|2},3", "{1", "(", "1|2} + {3|4"):
            with self.assertRaisesRegex(WrongCall, "isn't one expression|don't match"):
                Game(text)
        for text in ("1 # 2", "1 2", "--1", "{1,2}", "value 1", "3.2", "1 +"):
            for made in (Game(text), 1 + Game(text), -Game(text), 2 * Game(text), game(text, 0)):
                with self.assertRaises(Refused, msg=str(made)) as caught:
                    self.assertIsNotNone(made.value)
                self.assertEqual(caught.exception.kind, "syntax")

    def test_games_never_change(self) -> None:
        g = domineering("..|..")
        for name in ("_terms", "value", "other"):
            with self.assertRaisesRegex(WrongCall, "never changes"):
                setattr(g, name, 1)
            with self.assertRaisesRegex(WrongCall, "never changes"):
                g.__delattr__(name)

    def test_copies(self) -> None:
        for g in (domineering("..|.."), Game("1 + ^") - Game("2*")):
            for other in (copy.copy(g), copy.deepcopy(g), pickle.loads(pickle.dumps(g)), Game(g)):
                self.assertEqual((str(other), other.board), (str(g), g.board))
        own = Game("^", session=Session())
        self.assertIs(copy.deepcopy(own).session, own.session)
        value = pickle.loads(pickle.dumps(Value("*")))
        self.assertEqual(value, Value("*"))


class Asked(unittest.TestCase):
    """What a game tells is what the program answers, asked once."""

    def test_answers(self) -> None:
        g = domineering("...|...")
        self.assertEqual(g.value, Value("{2|-1/2}"))
        self.assertEqual(g.outcome, "N")
        self.assertEqual(g.stops, Stops(Fraction(2), Fraction(-1, 2)))
        left, right = g.stops
        self.assertEqual((left, right), (2, Fraction(-1, 2)))
        self.assertEqual((g.mean, g.temperature), (Fraction(3, 4), Fraction(5, 4)))
        self.assertEqual((g.thermograph.mean, g.thermograph.temperature), (g.mean, g.temperature))
        self.assertEqual(g.compare("^"), Comparison(str(g), "||", "^"))
        self.assertTrue(g.proof(-1).holds)
        self.assertFalse(g.proof("^").holds)

    def test_orders(self) -> None:
        up, star = Game("^"), Game("*")
        self.assertTrue(up > 0 and up >= 0 and 0 < up and not up < 0 and not up <= 0)
        self.assertTrue(up.is_confused_with(star) and not up < star and not up >= star)
        self.assertTrue(star + star == 0 and up != 0 and not up == star)
        self.assertTrue(Game("{0|1}") == Fraction(1, 2) and Game("1/2") >= Value("1/2"))
        self.assertFalse(up == object() or up == 1.5)
        self.assertEqual(sorted([Game(3), Game("1/2"), Game(-1)]), [-1, Fraction(1, 2), 3])

    def test_hashes_go_by_the_canonical_form(self) -> None:
        games = [Game("{1|-1}"), Game("+-1"), Game("1 + {0|-2}"), Game("*"), octal("0.77", 1)]
        self.assertEqual(len(set(games)), 2)
        self.assertEqual(hash(Game("{0|1}")), hash(Fraction(1, 2)))

    def test_each_is_asked_once(self) -> None:
        with tempfile.TemporaryDirectory() as folder:
            script = 'echo run >> "$0.runs"; exec "$REAL" "$@"'
            session = Session(program=program(Path(folder), script))
            runs = Path(folder, "program.runs")

            def count(ask: Callable[[], object]) -> int:
                before = len(runs.read_text()) if runs.exists() else 0
                ask()
                return (len(runs.read_text()) - before) // 4 if runs.exists() else 0

            g = Game("{2|-1}", session=session)
            h = g + 1
            self.assertFalse(runs.exists())
            self.assertEqual(count(lambda: [g.value, g.value, hash(g), g == g, g == 1]), 1)
            self.assertEqual(count(lambda: [g.stops, g.stops, g.outcome, g.outcome]), 2)
            self.assertEqual(count(lambda: [g > 0, g < 0, g.is_confused_with(0)]), 1)
            self.assertEqual(count(lambda: [g.thermograph, g.mean, g.temperature]), 1)
            self.assertEqual(count(lambda: [Game(g).value, h == g, h == g]), 1)
            self.assertEqual(count(lambda: [g.proof(0), g.proof("0")]), 1)
            self.assertEqual(count(lambda: g.value.left_options[0].birthday), 0)

    def test_deep_games_by_their_values(self) -> None:
        g = Game(0)
        for number in range(30):
            g = Game(game(g, -number).value)
        self.assertEqual(g.value.birthday, 30)


class Sessions(unittest.TestCase):
    """Which session is asked."""

    def test_the_default_session(self) -> None:
        before = default_session()
        self.addCleanup(use_session, before)
        self.assertIs(default_session(), before)
        small = Session(share=4)
        g = Game("{0|0}")
        use_session(small)
        self.assertIs(g.session, small)
        with self.assertRaisesRegex(Refused, r"Session\(share=..\) \(! full\)"):
            self.assertIsNotNone(g.value)
        use_session(before)
        self.assertEqual(g.value, Value("*"))
        with self.assertRaises(WrongCall):
            use_session("small")  # type: ignore[arg-type]

    def test_sums_ask_the_session_of_their_parts(self) -> None:
        one, other = Session(), Session()
        g = Game("^", session=one)
        for made in (g + 1, 1 - g, -g, 2 * g, game(g, 0), game(1, g), Game(g)):
            self.assertIs(made.session, one)
        h = Game("*", session=other)
        calls: list[Callable[[], object]] = [lambda: g + h, lambda: g < h, lambda: g.proof(h)]
        calls.append(lambda: game(g, h))
        for wrong in calls:
            with self.assertRaisesRegex(WrongCall, "two different sessions"):
                wrong()
        self.assertTrue(Game(h, session=one).is_confused_with(g))
        self.assertIs(Game(h, session=one).session, one)

    def test_names_of_a_session(self) -> None:
        session = Session()
        session.define("room", "{2|-1}")
        self.assertEqual(Game("room + 1", session=session).value, Value("{3|0}"))
        other = Session()
        other.define("room", "*")
        self.assertNotEqual(Game("room", session=session), Game("room", session=other))
        with self.assertRaisesRegex(Refused, "define the name") as caught:
            self.assertIsNotNone(Game("room").value)
        self.assertEqual((caught.exception.kind, caught.exception.place), ("name", 7))


class WrongCalls(unittest.TestCase):
    """Each wrong call raises one exception of the package, which says what to do."""

    def test_wrong_calls(self) -> None:
        g = Game("^")
        rows: list[tuple[Callable[[], object], str]] = [
            (lambda: g + "*", r"write Game\('\*'\)"),  # type: ignore[operator]
            (lambda: "*" - g, r"write Game\('\*'\)"),  # type: ignore[operator]
            (lambda: g < "*", r"write Game\('\*'\)"),  # type: ignore[operator]
            (lambda: g + 0.5, "an int or a Fraction, not 0.5"),  # type: ignore[operator]
            (lambda: g > None, "an int or a Fraction, not None"),  # type: ignore[operator]
            (lambda: 1.5 * g, "multiplied by a whole number"),  # type: ignore[operator]
            (lambda: g * g, "multiplied by a whole number"),  # type: ignore[operator]
            (lambda: Game(0.5), "0.5 is no game"),  # type: ignore[arg-type]
            (lambda: Game(None), "None is no game"),  # type: ignore[arg-type]
            (lambda: Game(""), "is blank"),
            (lambda: Game("1", session="s"), "is no session"),  # type: ignore[arg-type]
            (lambda: Game("1\n2"), "stands on one line"),
            (lambda: g.compare([1]), r"\[1\] is no game"),  # type: ignore[arg-type]
            (lambda: game(None, 1), "a list of games, not None"),  # type: ignore[arg-type]
            (lambda: game([None], 1), "None is no game"),  # type: ignore[list-item]
        ]
        for call, message in rows:
            with self.assertRaisesRegex(WrongCall, message):
                call()
        self.assertTrue(issubclass(WrongCall, CgError))

    def test_refusals(self) -> None:
        for text, kind, place in [
            ("{1,2}", "syntax", 11),
            ("6/3", "range", None),
            ('Clobber("xo|o")', "board", 4),
        ]:
            with self.assertRaises(Refused) as caught:
                self.assertIsNotNone(Game(text).value)
            refused = caught.exception
            self.assertEqual((refused.kind, refused.place), (kind, place))
            self.assertIn(refused.sentence, str(refused))
            self.assertIn(f"value {text}", str(refused))
            again = pickle.loads(pickle.dumps(refused))
            self.assertEqual((str(again), again.refusal), (str(refused), refused.refusal))
