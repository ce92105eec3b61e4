"""The reference on worked rows: `python3 -m unittest discover -s tools/reference/tests`."""
import os
import sys
import unittest
from unittest import mock

FOLDER = os.path.dirname(os.path.abspath(__file__))
sys.path.insert(0, os.path.dirname(os.path.dirname(FOLDER)))

from reference import octal, play, session  # pylint: disable=wrong-import-position
from reference.boards import Grid  # pylint: disable=wrong-import-position
from reference.deep import with_deep_stack  # pylint: disable=wrong-import-position
from reference.rows import read_rows  # pylint: disable=wrong-import-position
from reference.session import run  # pylint: disable=wrong-import-position
from reference.whole import Differs  # pylint: disable=wrong-import-position


class Rows(unittest.TestCase):
    """The rows of rows.txt, and some that are too long for it."""

    def answered(self, words, session):
        """What the reference writes, and its status."""
        return with_deep_stack(lambda: run(words, lambda: session))

    def test_rows(self):
        rows = read_rows(os.path.join(FOLDER, "rows.txt"))
        self.assertGreater(len(rows), 50)
        for words, text, wanted in rows:
            with self.subTest(words=words, session=text):
                self.assertEqual(self.answered(words, text), wanted)

    def test_blanks_and_a_last_line_without_its_end(self):
        self.assertEqual(self.answered([], "# a\n\nvalue 1/2*\r"), ("3: 1/2*\n", 0))
        self.assertEqual(self.answered([], "\t# \xff\n \t\r\n  value\t1  "), ("3: 1\n", 0))

    def test_limits(self):
        self.assertEqual(self.answered([], "\n" * 1048577), ("", 6))
        self.assertEqual(self.answered([], "\n" * 1048576), ("", 0))
        self.assertEqual(self.answered([], "value 0\n" * 4097), ("", 6))

    def test_long_sums(self):
        session = "value 1" + " + 1" * 1000
        self.assertEqual(self.answered(["--cells", "3001"], session), ("1: 1001\n", 0))
        self.assertEqual(self.answered(["--cells", "3000"], session), ("1: ! full\n", 1))


class WholeTrees(unittest.TestCase):
    """Faults in the methods that the reference shares with the program are seen on small positions."""

    def refused(self, text):
        """Whether the whole tree of a position contradicts its value."""
        session.forget()
        self.addCleanup(session.forget)
        with self.assertRaises(Differs):
            run([], lambda: text)

    def test_a_piece_that_is_lost(self):
        whole = Grid.pieces
        with mock.patch.object(Grid, "pieces", lambda self, board: whole(self, board)[:1]):
            self.refused('value Clobber("xo.ox")')

    def test_a_piece_that_is_counted_twice(self):
        whole = Grid.pieces
        with mock.patch.object(Grid, "pieces", lambda self, board: whole(self, board) + whole(self, board)[1:]):
            self.refused('value Domineering("..#..")')

    def test_a_wrong_sum(self):
        with mock.patch.object(play.forms, "plus", lambda g, h: g):
            self.refused('value Domineering(".#..|.#..")')

    def test_a_wrong_least_nimber(self):
        with mock.patch.object(octal, "next", lambda counts: 1, create=True):
            self.refused('value Octal("0.3",2)')


if __name__ == "__main__":
    unittest.main()
