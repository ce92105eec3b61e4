"""Sessions: how questions are cut, shared out, answered and put in order."""
from __future__ import annotations

import subprocess
import tempfile
import threading
import time
import unittest
from fractions import Fraction
from pathlib import Path

from cgcalc import Definition, Mean, Outcome, Refusal, Session, Value, find_program
from tests.places import EXAMPLES, distinct, program

RECORD = 'echo "$@" >> "$0.words"; tee "$0.$$" | "$REAL" "$@"'


class Questions(unittest.TestCase):
    """What is asked and what isn't."""

    def test_no_questions(self) -> None:
        self.assertEqual(Session().ask([]), [])

    def test_texts_that_are_no_questions(self) -> None:
        for text in [
            "",
            " \t\r",
            "# a comment",
            "  # another",
            "value 1\nvalue 2",
            "g := 1",
            " g2\t:=1",
        ]:
            with self.subTest(text=text), self.assertRaises(ValueError):
                Session().ask(["value 1", text])
        with self.assertRaises(TypeError):
            Session().ask("value 1")

    def test_a_line_that_names_a_format_is_refused(self) -> None:
        self.assertEqual(Session().ask(["cg 2"]), [Refusal("syntax", column=4)])

    def test_bytes_that_are_no_letters(self) -> None:
        replies = Session().ask(
            ["value \u00e9", "value \udcff", 'value Clobber("\u00e9")', "value \x00"]
        )
        self.assertEqual(
            [str(reply) for reply in replies],
            ["! syntax 7", "! syntax 7", "! syntax 16", "! syntax 7"],
        )

    def test_limits(self) -> None:
        most = 67_108_864
        for name, number in [("share", 0), ("positions", 0), ("cells", most + 1), ("processes", 0)]:
            with self.subTest(name=name), self.assertRaisesRegex(ValueError, f"{name} must be"):
                Session(**{name: number})  # type: ignore[arg-type]

    def test_the_examples_of_the_repository(self) -> None:
        for path in EXAMPLES:
            lines = path.read_text().splitlines()
            wanted = subprocess.run(
                [find_program()], input=path.read_bytes(), stdout=subprocess.PIPE, check=False
            )
            session, got = Session(), []
            for number, line in enumerate(lines, 1):
                name, sign, text = line.partition(" := ")
                if line.strip() and not line.startswith("#") and line != "cg 2":
                    definition = Definition(name, text)
                    reply = session.bind(definition) if sign else session.ask([line])[0]
                    got.append(f"{number}: {reply}\n")
            with self.subTest(path=path.name):
                self.assertEqual("".join(got), wanted.stdout.decode())


class Shares(unittest.TestCase):
    """Each line has exactly the share, however many there are."""

    def test_one_line(self) -> None:
        self.assertEqual(Session(share=5).ask(["value {0|0}"]), [Value("*")])
        self.assertEqual(Session(share=4).ask(["value {0|0}"]), [Refusal("full")])

    def test_many_lines(self) -> None:
        lines = distinct("value {0|0}", 10_000)
        self.assertEqual(set(Session(share=5).ask(lines)), {Value("*")})
        self.assertEqual(set(Session(share=4).ask(lines)), {Refusal("full")})

    def test_definitions_have_the_share_too(self) -> None:
        session = Session(share=5)
        self.assertEqual(session.define("g", "{0|0}"), Value("*"))
        self.assertEqual(session.ask(["value g", "value g + 0"]), [Value("*"), Refusal("full")])
        self.assertEqual(session.bind(Definition("h", "g + 0")), Refusal("full"))
        self.assertEqual(session.ask(["outcome h", "outcome g"]), [Refusal("full"), Outcome("N")])

    def test_the_positions_limit(self) -> None:
        question = 'value Domineering("...|...")'
        self.assertEqual(Session(positions=8).ask([question]), [Value("{2|-1/2}")])
        self.assertEqual(Session(positions=7).ask([question]), [Refusal("positions")])

    def test_limits_can_be_set_anew(self) -> None:
        session = Session()
        session.set_limits(share=4, positions=65_536)
        self.assertEqual(session.ask(["value {0|0}"]), [Refusal("full")])
        with self.assertRaises(ValueError):
            session.set_limits(share=5, positions=0)

    def test_too_large_a_table(self) -> None:
        with tempfile.TemporaryDirectory() as folder:
            full = 'n=1; read mark; while read line; do n=$((n+1)); echo "$n: ! full"; done; exit 1'
            session = Session(share=40_000_000, program=program(Path(folder), full))
            session.bind(Definition("g", "1"))
            self.assertEqual(session.ask(["value 1"]), [Refusal("full")])
            with self.assertRaisesRegex(ValueError, "80000000 cells, and 67108864 are the most"):
                session.ask(["value g"])


class Cutting(unittest.TestCase):
    """Long lists become several runs."""

    def setUp(self) -> None:
        holder = tempfile.TemporaryDirectory()
        self.addCleanup(holder.cleanup)
        self.folder = Path(holder.name)
        self.program = program(self.folder, RECORD)

    def runs(self) -> list[list[str]]:
        """The words of each run."""
        return [line.split() for line in Path(self.program + ".words").read_text().splitlines()]

    def sessions(self) -> list[str]:
        """What each run read."""
        return [path.read_text() for path in self.folder.glob("program.[0-9]*")]

    def test_replies_keep_their_order(self) -> None:
        session = Session(share=1_000, cells=7_000, processes=3, program=self.program)
        numbers = range(40)
        replies = session.ask(f"mean {number}/2" for number in numbers)
        self.assertEqual(replies, [Mean(Fraction(number, 2)) for number in numbers])
        cells = [int(words[1]) for words in self.runs()]
        self.assertLessEqual(max(cells), 7_001)
        self.assertEqual(sum(cell // 1_000 for cell in cells), 40)

    def test_few_questions_share_one_run_and_all_processors(self) -> None:
        session = Session(share=1_000, processes=3, program=self.program)
        session.ask(["value 1", "value 2", "value 3"])
        self.assertEqual(
            self.runs(), [["--cells", "3001", "--positions", "65536", "--workers", "3"]]
        )

    def test_no_run_has_too_many_lines(self) -> None:
        session = Session(share=1, processes=1, program=self.program)
        self.assertEqual(len(session.ask(distinct("value 1", 12_000))), 12_000)
        sizes = sorted(text.count("\n") for text in self.sessions())
        self.assertEqual(sizes, [*[1_025] * 4, 3_809, 4_097])

    def test_no_run_has_too_many_bytes(self) -> None:
        session = Session(share=10, processes=1, program=self.program)
        lines = [f"value {number}" + " " * 300_000 for number in range(7)]
        self.assertEqual(len(set(session.ask(lines))), 7)
        self.assertEqual(sorted(text.count("\n") for text in self.sessions()), [2, 4, 4])

    def test_definitions_stand_before_each_piece_that_needs_them(self) -> None:
        session = Session(share=1_000, cells=4_000, program=self.program)
        for name, text in [("a", "^"), ("b", "a + *"), ("c", "b - 1"), ("d1", "3"), ("c", "2.c")]:
            session.define(name, text)
        for path in self.folder.glob("program.[0-9]*"):
            path.unlink()
        self.assertEqual(
            [str(reply) for reply in session.ask(["mean d1", "mean d1 + 1"])], ["3", "4"]
        )
        self.assertEqual(self.sessions(), ["cg 2\nd1 := 3\nmean d1\nmean d1 + 1\n"])


class Definitions(unittest.TestCase):
    """Names and what they stand for."""

    def test_a_name_stands_for_the_last_game_that_it_was_bound_to(self) -> None:
        session = Session()
        session.define("g", "1")
        session.define("h", "g + g")
        session.define("g", "g + 5")
        self.assertEqual([str(reply) for reply in session.ask(["value g", "value h"])], ["6", "2"])
        self.assertEqual(session.definitions, {"g": "g + 5", "h": "g + g"})

    def test_what_binds_and_what_does_not(self) -> None:
        session = Session()
        for name, text, reply, binds in [
            ("a", "{1|", "! syntax 9", False),
            ("b", "nobody", "! name 6", False),
            ("temp", "1", "! syntax 6", False),
            ("c", 'Clobber("xa")', "! board symbol 2", True),
            ("d", "6/3", "! range", True),
        ]:
            with self.subTest(name=name):
                self.assertEqual(str(session.bind(Definition(name, text))), reply)
                self.assertEqual(name in session.definitions, binds)
        replies = [str(reply) for reply in session.ask(["value c", "value d", "value a"])]
        self.assertEqual(replies, ["! board symbol 2", "! range", "! name 7"])

    def test_what_is_no_name(self) -> None:
        for name in [
            "",
            "v",
            "va",
            "G",
            "2g",
            "a b",
            "abcdefghijklmnopq",
            "#",
            'check 1;1;"',
            "g\n",
        ]:
            with self.subTest(name=name), self.assertRaises(ValueError):
                Session().define(name, "1")
        with self.assertRaises(ValueError):
            Session().define("g", "1\nvalue 2")

    def test_an_answer_does_not_depend_on_the_names_that_it_does_not_use(self) -> None:
        session = Session(share=20)
        for number in range(30):
            session.define(f"n{number}x", str(number))
        self.assertEqual(session.ask(["value n7x + n8x"]), [Value("15")])


class Stopping(unittest.TestCase):
    """Runs that aren't wanted any more."""

    def test_closing_the_replies_ends_the_runs(self) -> None:
        with tempfile.TemporaryDirectory() as folder:
            slow = 'read mark; read line; case $line in *2) exec sleep 1000;; esac; echo "2: 1"'
            session = Session(share=10, cells=10, processes=2, program=program(Path(folder), slow))
            threads = threading.active_count()
            replies = session.replies(["value 1", "value 2", "value 2"])
            began = time.monotonic()
            self.assertEqual(next(replies), Value("1"))
            del replies
            self.assertLess(time.monotonic() - began, 900)
            self.assertEqual(threading.active_count(), threads)
