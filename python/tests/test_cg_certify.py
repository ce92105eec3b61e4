"""The command cg-certify, as far as it goes without Coq; formal/tests has what Coq accepts."""
from __future__ import annotations

import io
import os
import shlex
import tempfile
import unittest
from contextlib import redirect_stderr, redirect_stdout
from pathlib import Path
from typing import Sequence
from unittest import mock

from cgcalc import Session
from cgcalc.certify_coq import row_told
from cgcalc.certify_expressions import Position, coq_text, language_text
from cgcalc.certify_positions import boards_after, pieces_after, reached
from cgcalc.certify_questions import certificate_of
from cgcalc.certify_reader import read_expression, read_question_parts
from cgcalc.certify_tables import ValueTable
from cgcalc.cg_certify import main, summary
from tests.places import ROOT

EXPRESSIONS = [
    "7/8",
    "-3",
    "1/2^3*2",
    "-1^ - 2.{3|1} + +-3/2 - Tiny(2)",
    "{2,1||0|-1}",
    "{a||b|c||d}".replace("a", "4").replace("b", "2").replace("c", "1").replace("||d", ""),
    "{ | }",
    "{|1/4}",
    "-(^ + *)",
    "- 1^",
    "2.^*",
    "2.** - vv",
    "3.(1/2 + *2)",
    "{Tiny(1/2)|Miny(3)}",
    '2.Toads("T.F") - Clobber( "xo|ox" )',
]
BOARD = 'Domineering("...|...")'


def tried(words: Sequence[str]) -> tuple[int, str, str]:
    """Runs the command in this process: its status, what it wrote and what it told."""
    written = io.TextIOWrapper(io.BytesIO(), encoding="utf-8")
    told = io.StringIO()
    try:
        with redirect_stdout(written), redirect_stderr(told), mock.patch("signal.signal"):
            status = main(words)
    except SystemExit as end:
        status = int(end.code or 0)
    written.flush()
    return status, written.buffer.getvalue().decode(), told.getvalue()  # type: ignore[attr-defined]


class Reading(unittest.TestCase):
    """Expressions and questions."""

    def test_an_expression_keeps_its_value(self) -> None:
        session = Session()
        for text in EXPRESSIONS:
            again = language_text(read_expression(text))
            self.assertEqual(session.compare(text, again).sign, "=", (text, again))

    def test_the_notation_of_the_theory(self) -> None:
        for text, written in (
            ("3/4", "3 / 4"),
            ("-1/2", "- 1 / 2"),
            ("+-2", "± 2"),
            ("{2|-1/2}", "{2 | - 1 / 2}"),
            ("{|}", "{  |  }"),
            ("1 - (2 - 3)", "1 - (2 - 3)"),
            ("v3*", "- 3 · ↑ + ∗"),
            ("2.{3|1} - Miny(1/2)", "2 · {3 | 1} - Miny(1 / 2)"),
            ("2.(1 + ^)", "2 · (1 + ↑)"),
            (BOARD, BOARD),
        ):
            self.assertEqual(coq_text(read_expression(text)), written)

    def test_a_semicolon_in_rules_parts_no_question(self) -> None:
        rules = 'Strip(".=1,0,0;A=0,0,0;L:..>AA","..")'
        parts = read_question_parts(f"{rules} ; 1", 2)
        self.assertEqual(list(map(language_text, parts)), [rules, "1"])


class Tables(unittest.TestCase):
    """What a certificate lists."""

    def test_options_stand_before_what_has_them(self) -> None:
        table = ValueTable()
        table.place("{3^*|{1|-1/2}}")
        for number, (lefts, rights) in enumerate(table.rows, 2):
            self.assertTrue(all(index < number for index in (*lefts, *rights)))
        self.assertEqual(table.rows[table.index["-1/2"] - 2], ((table.index["-1"],), (1,)))

    def test_positions_stand_behind_those_that_follow(self) -> None:
        square = tuple((row, column) for row in range(3) for column in range(3))
        pieces = reached([square], pieces_after)
        self.assertEqual(len(pieces), 51)
        for number, piece in enumerate(pieces):
            self.assertTrue(all(pieces.index(after) < number for after in pieces_after(piece)))

    def test_all_boards_are_listed(self) -> None:
        boards = reached([Position("Toads", ("TT..FF",))], boards_after)
        for number, board in enumerate(boards):
            self.assertTrue(all(boards.index(after) < number for after in boards_after(board)))

    def test_what_a_sum_needs(self) -> None:
        facts = certificate_of(["value 3.{2|0} - {3|1}"], Session()).facts
        self.assertEqual(len(facts.sums), 3)
        self.assertEqual(len(facts.negatives), 1)
        self.assertIn(read_expression("2"), facts.literals)


class Command(unittest.TestCase):
    """The command as it is called."""

    def test_the_example_of_the_page(self) -> None:
        page = (ROOT / "docs" / "CERTIFY.md").read_text(encoding="utf-8")
        _, _, example = page.partition("```\n$ cg-certify --check ")
        words, _, told = example.partition("```")[0].partition("\n")
        self.assertEqual(summary(certificate_of(shlex.split(words), Session())), told)

    def test_a_file_is_written(self) -> None:
        with tempfile.TemporaryDirectory() as place:
            file = Path(place) / "answer.v"
            status, written, told = tried([f"value {BOARD}", "-o", str(file)])
            self.assertEqual((status, written), (0, ""))
            self.assertIn("--check-file", told)
            text = file.read_text(encoding="utf-8")
        statement = f"<{{ {BOARD} }}> == <{{ {{2 | - 1 / 2}} }}> /\\ is_canonical"
        self.assertIn(f"Theorem answer_1 :\n  {statement}", text)
        self.assertIn("Print Assumptions", text)

    def test_standard_output(self) -> None:
        status, written, told = tried(["outcome *", "compare 1 ; 2"])
        self.assertEqual((status, told), (0, ""))
        self.assertIn("has_outcome <{ ∗ }> Next.", written)
        self.assertIn("<{ 1 }> < <{ 2 }>.", written)

    def test_a_refused_question_is_told_as_cg_tells_it(self) -> None:
        with tempfile.TemporaryDirectory() as place:
            file = Path(place) / "answer.v"
            status, written, told = tried(['value Clobber("xo|o")', "-o", str(file)])
            self.assertEqual((status, written), (1, ""))
            self.assertIn("(! board ragged 4)", told)
            self.assertEqual(os.listdir(place), [])

    def test_what_cannot_be_certified(self) -> None:
        wrong: list[tuple[list[str], str]] = [
            ([], "there is no question"),
            (["mean 1"], "the questions are value, outcome, compare, proof"),
            (['value Amazons("x..")'], "the theory has no rules of Amazons"),
            (["value 1", "--check-file", "no.v"], "--check-file takes no questions"),
        ]
        for words, why in wrong:
            status, written, told = tried(words)
            self.assertEqual((status, written), (2, ""), words)
            self.assertIn(why, told)

    def test_a_board_that_is_too_large_tells_its_positions(self) -> None:
        with mock.patch("cgcalc.certify_positions.MOST_POSITIONS", 10):
            status, written, told = tried(['value Toads("TT..FF")'])
        self.assertEqual((status, written), (2, ""))
        self.assertIn("the boards have 81 positions: a table has at most", told)

    def test_too_many_values(self) -> None:
        with mock.patch("cgcalc.certify_tables.MOST_VALUES", 10):
            status, _, told = tried(["value *20"])
        self.assertEqual(status, 2)
        self.assertIn("the questions need more than 10 values: certify fewer at a time", told)

    def test_without_coq(self) -> None:
        with tempfile.TemporaryDirectory() as place:
            file = Path(place) / "answer.v"
            missing = mock.Mock(which=lambda name: None)
            with mock.patch("cgcalc.certify_coq.shutil", missing):
                status, written, told = tried(["value *", "--check", "-o", str(file)])
            self.assertEqual((status, written), (2, ""))
            self.assertIn("install Coq 8.16 or later", told)
            self.assertTrue(file.is_file())

    def test_a_bad_row_is_told_as_it_stands(self) -> None:
        text = "certificate := {|\n  value_rows := [([], []);\n    ([2], [3])];\n"
        self.assertEqual(row_told(text, "value", 2), "row 2 of value_rows is wrong: ([2], [3])]")


if __name__ == "__main__":
    unittest.main()
