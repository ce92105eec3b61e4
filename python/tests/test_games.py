"""The names of games: each that something here knows is the program's, and the other way round."""
from __future__ import annotations

import re
import string
import subprocess
import sys
import unittest
from pathlib import Path

from cgcalc import Refusal, Session, find_program
from cgcalc.completion import fitting
from cgcalc.games import FORMS, GAMES
from cgcalc.limits import CELLS, MOST_LINES, POSITIONS
from tests.places import ROOT

EDITORS = ("vim/syntax/cgsession.vim", "textmate/syntaxes/cg-session.tmLanguage.json")
LISTS = re.compile(r"(?:[A-Z][a-z]+\\?\|)+[A-Z][a-z]+")


def words_of_the_program() -> set[str]:
    """The words with a capital letter that an expression may begin with.

    The program tells them itself: a line that breaks off within a word is refused behind its end,
    and one with a letter too many at that letter.
    """
    session, known, words = Session(share=100), [""], set()
    while known:
        longer = [word + letter for word in known for letter in string.ascii_letters + "("]
        longer = [word for word in longer if word[0] in string.ascii_uppercase]
        replies = session.ask(f"value {word}" for word in longer)
        ends = {
            word: isinstance(reply, Refusal) and reply.column == len(f"value {word}") + 1
            for word, reply in zip(longer, replies)
        }
        words |= {word[:-1] for word, goes_on in ends.items() if goes_on and word[-1] == "("}
        known = [word for word, goes_on in ends.items() if goes_on and word[-1] != "("]
    return words


def names_in(path: Path) -> list[str]:
    """The names in the lists of alternatives of an editor's file."""
    return re.findall("[A-Za-z]+", " ".join(LISTS.findall(path.read_text(encoding="utf-8"))))


class Games(unittest.TestCase):
    """Each list of games against the program."""

    def test_the_package_has_the_words_of_the_program(self) -> None:
        self.assertEqual(sorted([*GAMES, *FORMS]), sorted(words_of_the_program()))

    def test_the_completion(self) -> None:
        words = [word.rstrip('("') for word in fitting("value ", "", [])]
        self.assertEqual(sorted(words), sorted([*GAMES, *FORMS]))

    def test_the_editors(self) -> None:
        for name in EDITORS:
            with self.subTest(name=name):
                found = names_in(ROOT / "editors" / name)
                self.assertEqual(sorted(found), sorted([*GAMES, *FORMS]))

    def test_the_generator(self) -> None:
        script = "from seeded.positions import MAKERS; print(*sorted(MAKERS))"
        words = [sys.executable, "-B", "-c", script]
        done = subprocess.run(words, cwd=ROOT / "tools", capture_output=True, check=True)
        self.assertEqual(done.stdout.decode().split(), sorted(GAMES))

    def test_the_page_on_adding_a_game(self) -> None:
        text = (ROOT / "docs" / "ADDING_A_GAME.md").read_text(encoding="utf-8")
        (line,) = re.findall(r"^Games of sessions: (.*)\.$", text, re.MULTILINE)
        self.assertEqual(sorted(line.split(", ")), sorted(GAMES))


class Defaults(unittest.TestCase):
    """What the program takes where nothing is said."""

    def first(self, question: str, lines: int, *words: str) -> str:
        """The reply to a question which so many lines share the table with."""
        session = question + "\n" + "value 0\n" * (lines - 1)
        done = subprocess.run(
            [find_program(), *words], input=session.encode(), capture_output=True, check=False
        )
        return done.stdout.decode().split("\n")[0]

    def test_cells(self) -> None:
        self.assertEqual(CELLS, MOST_LINES * 32**2)
        just, above = "value *31", "value {*31|}"  # these cost 32 * 32 cells, and one more
        self.assertEqual(self.first(just, MOST_LINES), "1: *31")
        self.assertEqual(self.first(just, MOST_LINES, f"--cells={CELLS - 1}"), "1: ! full")
        self.assertEqual(self.first(above, MOST_LINES), "1: ! full")
        self.assertEqual(self.first(above, MOST_LINES, f"--cells={CELLS + MOST_LINES}"), "1: 0")

    def test_positions(self) -> None:
        for question, cause in [(POSITIONS - 2, "full"), (POSITIONS - 1, "positions")]:
            with self.subTest(question=question):
                reply = self.first(f"value ^{question}", 1, "--cells=10")
                self.assertEqual(reply, f"1: ! {cause}")
