"""Replies: from the program's text and back."""
from __future__ import annotations

import unittest
from fractions import Fraction

from cgcalc import (
    Check,
    Corner,
    Mean,
    Order,
    Outcome,
    Proof,
    Refusal,
    Reply,
    Stops,
    Temperature,
    Thermograph,
    Value,
    read_reply,
)

HALF = Fraction(1, 2)
ROWS: list[tuple[str, str, Reply]] = [
    ("value {1|-1}", "+-1", Value("+-1")),
    ("\tvalue {0|1} ", "1/2", Value("1/2")),
    ("compare 0 ; 1", "<", Order("<")),
    ("compare 1 ; 0", ">", Order(">")),
    ("compare 0 ; 0", "=", Order("=")),
    ("compare 0 ; *", "||", Order("||")),
    ("outcome 1", "L", Outcome("L")),
    ("stops {0|1/2}", "left 1/4 right -1/4", Stops(Fraction(1, 4), Fraction(-1, 4))),
    ("mean {4||2|0}", "5/2", Mean(Fraction(5, 2))),
    ("temp 1/2", "-1/2", Temperature(-HALF)),
    (
        "thermo {1|0}",
        "mean 1/2 temp 1/2 left 1@0 1/2@1/2 right 0@0 1/2@1/2",
        Thermograph(
            HALF,
            HALF,
            (Corner(Fraction(1), Fraction(0)), Corner(HALF, HALF)),
            (Corner(Fraction(0), Fraction(0)), Corner(HALF, HALF)),
        ),
    ),
    ("proof ^ ; 0", "yes (g0.)", Proof(True, "(g0.)")),
    ("proof 0 ; 1", "no .", Proof(False, ".")),
    ('check ^ ; 0 ; "(g0.)"', "yes", Check(True)),
    ('check ^ ; 0 ; "."', "no", Check(False)),
    ("valu 1", "! syntax 5", Refusal("syntax", column=5)),
    ("value g", "! name 7", Refusal("name", column=7)),
    ("value g", "! parts", Refusal("parts")),
    ('value Clobber("xa")', "! board symbol 2", Refusal("board", cause="symbol", place=2)),
    ("value *65536", "! positions", Refusal("positions")),
    ("value 6/3", "! range", Refusal("range")),
    ("value *513", "! depth", Refusal("depth")),
    ("value *70", "! full", Refusal("full")),
    ("proof *9 ; *9", "! long", Refusal("long")),
]
SPOILT = [
    ("valu 1", "1"),
    ("mean 1", "{1|0}"),
    ("mean 1", "1/0"),
    ("mean 1", "01"),
    ("outcome 1", "X"),
    ("compare 1 ; 1", "=="),
    ("stops 1", "left 1"),
    ("thermo 1", "mean 1 temp -1 left 1@0 right"),
    ('check 1 ; 1 ; "."', "maybe"),
    ("value 1", "! syntax"),
    ("value 1", "! full 3"),
    ("value 1", "! board wrong 3"),
    ("value 1", "! later"),
]


class Replies(unittest.TestCase):
    """Each kind of reply is read, and `str` gives the text back."""

    def test_rows(self) -> None:
        for question, text, reply in ROWS:
            with self.subTest(text=text):
                self.assertEqual(read_reply(question, text), reply)
                self.assertEqual(str(reply), text)
                self.assertEqual(reply.refused, text.startswith("!"))

    def test_spoilt_texts_are_no_replies(self) -> None:
        for question, text in SPOILT:
            with self.subTest(text=text), self.assertRaises(ValueError):
                read_reply(question, text)

    def test_replies_are_frozen_and_hashable(self) -> None:
        self.assertEqual(len({reply for _, _, reply in ROWS}), len(ROWS))
        with self.assertRaises(AttributeError):
            setattr(Value("1"), "name", "2")

    def test_each_refusal_has_a_sentence(self) -> None:
        causes = [
            "rules",
            "symbol",
            "empty",
            "ragged",
            "large",
            "lowering",
            "edges",
            "octal",
            "heap",
        ]
        refusals = [reply for _, _, reply in ROWS if isinstance(reply, Refusal)]
        refusals += [Refusal("board", cause=cause, place=7) for cause in causes]
        sentences = {refusal.explain() for refusal in refusals}
        self.assertEqual(len(sentences), len(refusals))


class NoValues(unittest.TestCase):
    """Not every text is the name of a value."""

    def test_texts_that_are_no_names(self) -> None:
        for text in ("yes", "", "{1|", "1}", "left 1 right 2", "Domineering", "g", "Tiny"):
            with self.subTest(text=text), self.assertRaises(ValueError):
                read_reply("value 1", text)
        for text in ("-1/2^3*2", "{2,{3|1}|0}", "+-3/4", "Tiny(1/2)", "{Miny(2),v|*}", "{|}"):
            self.assertEqual(str(read_reply("value 1", text)), text)
