"""Typed calls of a session: each is answered by what it asks for, or raises Refused."""
from __future__ import annotations

import tempfile
import unittest
from fractions import Fraction
from pathlib import Path

from cgcalc import (
    CgError,
    Comparison,
    Game,
    Proof,
    Refused,
    Session,
    Stops,
    Thermograph,
    Value,
    WrongCall,
)
from cgcalc.operands import Expression
from tests.places import program


class TypedCalls(unittest.TestCase):
    """All nine questions."""

    def test_answers(self) -> None:
        session = Session()
        same: list[Expression] = ["{4||2|0}", Game("{4|{2|0}}"), Value("{4|{2|0}}")]
        for text in same:
            self.assertEqual(session.value(text), Value("{4|{2|0}}"))
            self.assertEqual(session.outcome(text), "L")
            self.assertEqual(session.stops(text), Stops(Fraction(4), Fraction(2)))
            self.assertEqual(session.mean(text), Fraction(5, 2))
            self.assertEqual(session.temperature(text), Fraction(3, 2))
            self.assertIsInstance(session.thermograph(text), Thermograph)
        self.assertEqual(session.compare("^", 0), Comparison("^", ">", "0"))
        self.assertEqual(session.compare(Fraction(1, 2), "*").sign, ">")
        self.assertEqual(session.proof("^", 0), Proof(True, "(g0.)"))
        self.assertTrue(session.check("^", 0, "(g0.)"))
        self.assertFalse(session.check("*", 0, "(g0.)"))

    def test_definitions_are_known(self) -> None:
        session = Session()
        session.define("room", "{2|-1}")
        self.assertEqual(session.mean("2.room - 1"), 0)

    def test_refusals(self) -> None:
        session = Session(share=20)
        for call in (session.value, session.outcome, session.stops, session.mean):
            with self.assertRaises(Refused) as caught:
                call("*9")
            self.assertEqual((caught.exception.kind, caught.exception.place), ("full", None))
        for temperature in (session.temperature, session.thermograph):
            with self.assertRaisesRegex(Refused, "no line of the notation goes on like this"):
                temperature("{1,2}")
        with self.assertRaises(Refused) as caught:
            session.compare("1 ; 2", 3)
        self.assertEqual(caught.exception.kind, "syntax")
        with self.assertRaisesRegex(Refused, "goes on like this"):
            session.check(1, 0, 'x"')

    def test_wrong_calls(self) -> None:
        session = Session()
        for wrong in (None, 0.5, [1], "", "1\n2"):
            with self.assertRaises(WrongCall):
                session.value(wrong)  # type: ignore[arg-type]

    def test_another_program(self) -> None:
        with tempfile.TemporaryDirectory() as folder:
            session = Session(program=program(Path(folder), "exit 5"))
            with self.assertRaisesRegex(CgError, "memory was wanting"):
                session.value(1)
