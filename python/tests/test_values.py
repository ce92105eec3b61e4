"""Values: options, birthdays and other notations of canonical forms, beside the program."""
from __future__ import annotations

import pickle
import unittest
from fractions import Fraction
from functools import lru_cache

from cgcalc import Game, Session, Value, WrongCall
from cgcalc.names import options_of, with_bars

EXPRESSIONS = [
    *(
        "0",
        "1",
        "-3",
        "1/2",
        "-5/8",
        "7/4",
        "18446744073709551615",
        "1/1099511627776",
        "-2000001/2",
    ),
    *("*", "*2", "*7", "1/2*", "-3*2", "^", "^^", "^7", "v", "vv", "v4", "^*", "^^*", "^5*", "v*"),
    *("v3*", "1/2^", "-1^^", "3v*", "2^3*", "-1/4v2", "+-1", "+-3/2", "Tiny(2)", "Tiny(1/4)"),
    *("Miny(3)", "Miny(1/2)", "{2|-1}", "{4||2|0}", "{0|*3}", "{1,{3|0}|-1}", "{1||0|-1}"),
    *(
        "{{{20|2}|1}|{-1||-2|-30}}",
        "{0,*|^}",
        "{2,{5|1}|{0|-2},{1|-3}}",
        "{0||0|||0|-1}",
        "^^^ + *2",
    ),
    *('Domineering("....|....|....")', 'Amazons("x..|..o")', 'Clobber("xoxo|oxox")'),
    *('Toads("TTT..FFF")', "+-1 + {3|1}", "{3|0||-1|-4}", "{2|1|||0||-1|-2}", "{0|Tiny(3)}"),
]


def values(expressions: list[str]) -> list[Value]:
    """The values of expressions."""
    replies = Session(share=32_768).ask(f"value {expression}" for expression in expressions)
    found = [reply for reply in replies if isinstance(reply, Value)]
    if len(found) != len(expressions):
        raise AssertionError(f"some are refused: {replies}")
    return found


def brace(value: Value) -> str:
    """A value written by its options."""
    sides = (value.left_options, value.right_options)
    left, right = (",".join(option.name for option in side) for side in sides)
    return f"{{{left}|{right}}}"


@lru_cache(maxsize=None)
def positions_of(expressions: frozenset[str]) -> list[Value]:
    """The values of expressions and of their options, where they are born before day 40."""
    found = dict.fromkeys(value for value in values(sorted(expressions)) if value.birthday < 40)
    waiting = list(found)
    while waiting:
        value = waiting.pop()
        for option in value.left_options + value.right_options:
            if option not in found:
                found[option] = None
                waiting.append(option)
    return list(found)


class Options(unittest.TestCase):
    """What is told of a canonical form is what the program tells."""

    def positions(self) -> list[Value]:
        """Values of all kinds."""
        return positions_of(frozenset(EXPRESSIONS))

    def test_a_value_is_the_brace_of_its_options(self) -> None:
        found = self.positions() + [Value("18446744073709551615"), Value("-2000001/2")]
        self.assertGreater(len(found), 120)
        self.assertEqual(values([brace(value) for value in found]), found)

    def test_no_option_is_dominated_or_reversible(self) -> None:
        pairs: list[tuple[str, str, str]] = []
        for value in self.positions():
            if value.number is not None:
                continue
            for left in value.left_options:
                others = (other for other in value.left_options if other != left)
                pairs += [(left.name, other.name, "<=") for other in others]
                pairs += [(back.name, value.name, "<=") for back in left.right_options]
            for right in value.right_options:
                others = (other for other in value.right_options if other != right)
                pairs += [(right.name, other.name, ">=") for other in others]
                pairs += [(back.name, value.name, ">=") for back in right.left_options]
        self.assertGreater(len(pairs), 300)
        orders = Session(share=4_096).ask(
            f"compare {first} ; {second}" for first, second, _ in pairs
        )
        for (first, second, never), order in zip(pairs, orders):
            self.assertNotIn(str(order), never, f"{first} ; {second}")

    def test_options_stand_in_the_order_of_proofs(self) -> None:
        """No Left option is at least its game, which Left shows by moving to that very option."""
        asked = []
        for value in self.positions():
            if value.number is None:
                lefts, rights = value.left_options, value.right_options
                asked += [(f"{a} ; {value}", f"no l{at}") for at, a in enumerate(lefts)]
                asked += [(f"{value} ; {b}", f"no r{at}") for at, b in enumerate(rights)]
        self.assertGreater(len(asked), 200)
        proofs = Session(share=4_096).ask(f"proof {question}" for question, _ in asked)
        for (question, answer), proof in zip(asked, proofs):
            self.assertRegex(str(proof), f"^{answer}(?![0-9])", question)

    def test_birthdays(self) -> None:
        born: dict[Value, int] = {}
        for value in sorted(self.positions(), key=lambda it: it.birthday):
            options = value.left_options + value.right_options
            born[value] = 1 + max((born[option] for option in options), default=-1)
            self.assertEqual(value.birthday, born[value], value.name)
        self.assertEqual(Value("-2000001/2").birthday, 1_000_002)

    def test_bars_in_place_of_braces_mean_the_same(self) -> None:
        found = self.positions()
        self.assertEqual(values([with_bars(value.name) for value in found]), found)
        self.assertEqual(with_bars("{{2|1}|{{0|-1}|-2}}"), "{2|1|||0|-1||-2}")
        self.assertEqual(with_bars("{{{{4|3}|2}|1}|0}"), "{{4|3||2|||1}|0}")
        self.assertEqual(with_bars("{{1|0}|{{{4|3}|2}|1}}"), "{1|0||{4|3||2|||1}}")

    def test_deep_names(self) -> None:
        name = "{" * 500 + "1|0}" + "|0}" * 499
        self.assertEqual(Value(name).birthday, 501)
        self.assertEqual(Value(name).right_options, (Value("0"),))
        self.assertIn("{4", with_bars(name).replace("1", "4"))


class AsObjects(unittest.TestCase):
    """Values are compared and hashed by their form, and are no other names."""

    def test_equality(self) -> None:
        self.assertEqual(Value("1/2"), Fraction(1, 2))
        self.assertEqual(Value("-3"), -3)
        self.assertNotEqual(Value("*"), Value("*2"))
        self.assertNotEqual(Value("*"), 0)
        self.assertNotEqual(Value("*"), None)
        self.assertEqual({Value("1/2"): "half"}[Game("{0|1}").value], "half")
        half: dict[object, str] = {Fraction(1, 2): "half"}
        self.assertEqual(half[Game("{0|1}").value], "half")
        self.assertEqual(len({Value("^"), Game("{0|*}"), Game("^"), 0, Game("* + *")}), 2)
        self.assertNotEqual(Value("*"), "*")
        self.assertNotIn(Value("1"), ["1", 1.5, None])
        self.assertEqual([bool(Value(name)) for name in ("0", "1", "*")], [False, True, True])

    def test_sums_with_values_are_games(self) -> None:
        value = Game("{2|-1}").value
        self.assertEqual(str(1 + value - value.left_options[0]), "1 + {2|-1} - 2")
        self.assertEqual((value + Fraction(1, 2)).mean, 1)
        self.assertTrue(value.left_options[0] > value.right_options[0])

    def test_numbers(self) -> None:
        self.assertEqual(Value("-7/8").number, Fraction(-7, 8))
        for name in ("^", "{2|0}", "+-1", "1/2*", "1/0"):
            self.assertIsNone(Value(name).number, name)

    def test_texts_that_are_no_names(self) -> None:
        for name in (
            "",
            "x",
            "{1|",
            "{1,2}",
            "{1|2|3}",
            "1}",
            "{1|2}}",
            "1 + 1",
            "a|b",
            "1/0",
            "{x|}",
            "*9999999999",
        ):
            with self.subTest(name=name), self.assertRaisesRegex(
                WrongCall, "is no name of a value"
            ):
                self.assertIsNotNone((Value(name).birthday, options_of(name)))
        for text in ("", "x", "{1|", "1 + 1", "g", 3, None):
            with self.subTest(text=text):
                self.assertRaisesRegex(WrongCall, "is no name of a value", Value, text)

    def test_a_name_of_your_own_is_asked(self) -> None:
        written = Value("{2,1|0}")
        self.assertEqual((written.is_told, Game(written).value.name), (False, "{2|0}"))
        told = Game("{2,1|0}").value
        kept = pickle.loads(pickle.dumps(told))
        for value in (told, kept, *told.left_options, *kept.right_options):
            self.assertTrue(value.is_told and Game(value).knows("value"))
        self.assertEqual(repr(told), "Value(name='{2|0}')")
