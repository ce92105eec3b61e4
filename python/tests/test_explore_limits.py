"""What the explorer's questions cost, and the limits that they meet."""
from __future__ import annotations

import os
import tempfile
import threading
import unittest
from pathlib import Path
from typing import Any

from cgcalc import Session
from cgcalc.processors import processors
from tests.explorer import Server, children_of
from tests.places import program, waits

EMPTY = 'Domineering("....|....|....|....")'
FORTY_MOVES = (
    (EMPTY, 'Domineering("...|...|...|...")'),
    ('Amazons("x..|...|..o")',),
    ('Domineering("....#|.....|.....|.....")', "^"),
)


def seconds_of(process: int) -> float:
    """The processor's seconds that a process and those that it started took."""
    fields = Path(f"/proc/{process}/stat").read_text().rpartition(")")[2].split()
    return sum(map(int, fields[11:15])) / os.sysconf("SC_CLK_TCK")


class Speed(unittest.TestCase):
    """What questions cost. The processor's seconds are counted, since the machine may be busy."""

    def test_forty_moves(self) -> None:
        for parts in FORTY_MOVES:
            server = Server()
            self.addCleanup(server.end)
            before = seconds_of(server.process.pid)
            self.assertTrue(server.ask("position", parts=parts)["value"]["name"])
            told = server.ask("moves", parts=parts)
            moves = [move for player in "LR" for move in told["moves"][player]]
            self.assertGreaterEqual(len(moves), 30)
            self.assertTrue(all("name" in move["value"] for move in moves))
            self.assertEqual(set(told["checks"]), {"equal"})
            self.assertLess(seconds_of(server.process.pid) - before, 1.0, parts)

    def test_a_board_takes_few_runs_and_a_kept_answer_none(self) -> None:
        with tempfile.TemporaryDirectory() as folder:
            noted = Path(folder) / "runs"
            counting = program(Path(folder), f'echo run >> {noted}\nexec "$REAL" "$@"')
            server = Server("--share", "30000", changes={"CG": counting})
            self.addCleanup(server.end)
            for parts in ([EMPTY], ["{2|-1}"]):
                server.ask("position", parts=parts)
                told = server.ask("moves", parts=parts)
                server.ask("reasons", parts=parts)
                runs = len(noted.read_text().split())
                for word in ("position", "moves", "reasons"):
                    server.ask(word, parts=parts)
                self.assertEqual(len(noted.read_text().split()), runs)
                self.assertLess(runs, 40)
                self.assertTrue(told["moves"]["L"])

    def test_a_sum_that_is_too_large(self) -> None:
        server = Server()
        self.addCleanup(server.end)
        before = seconds_of(server.process.pid)
        parts = [f"{{{2**n}|-{3**n}}}" for n in range(16)]
        told = server.ask("position", parts=parts)
        self.assertEqual(told["value"]["kind"], "positions")
        told = server.ask("moves", parts=parts)["moves"]["R"]
        self.assertEqual([one["value"]["name"] for one in told], [str(-(3**n)) for n in range(16)])
        self.assertEqual({one["wins"] for one in told}, {None})
        self.assertLess(seconds_of(server.process.pid) - before, 4.0)

    def test_moves_of_a_board_that_lacks_cells(self) -> None:
        server = Server("--share", "30000")
        self.addCleanup(server.end)
        self.assertEqual(server.ask("position", parts=[EMPTY])["parts"][0]["value"]["kind"], "full")
        told, session = server.ask("moves", parts=[EMPTY]), Session()
        self.assertEqual(told["checks"], ["unchecked"])
        for player in ("L", "R"):
            self.assertEqual(len(told["moves"][player]), 12)
            for move in told["moves"][player]:
                self.assertEqual(move["value"]["name"], str(session.value(move["leaves"][0])))
                self.assertEqual(move["winner"], session.outcome(move["leaves"][0]))
        told = server.ask("moves", parts=[EMPTY, "^"])
        self.assertEqual({move["winner"] for move in told["moves"]["L"]}, {None, "L", "N"})


class Limits(unittest.TestCase):
    """What ends a question, and that others are answered after it."""

    def test_a_question_is_stopped_by_its_name_and_by_the_clock(self) -> None:
        self.assertEqual(self.stopped("60", stops=True), "you stopped it")
        self.assertEqual(self.stopped("2", stops=False), "it took more than 2 seconds")

    def stopped(self, seconds: str, stops: bool) -> str:
        """Why a question got no answer that would take a minute."""
        told: list[Any] = []
        with tempfile.TemporaryDirectory() as folder:
            slow = program(Path(folder), 'sleep 60\nexec "$REAL" "$@"')
            server = Server("--timeout", seconds, changes={"CG": slow})
            self.addCleanup(server.end)

            def ask() -> None:
                told.append(server.send("POST", "/ask/position", {"id": "one", "parts": ["^"]})[1])

            asking = threading.Thread(target=ask)
            asking.start()
            if stops:
                self.assertTrue(waits(lambda: bool(children_of(server.process.pid))))
                self.assertTrue(server.send("POST", "/ask/stop", {"id": "one"})[1]["stopped"])
            asking.join(50)
            self.assertTrue(waits(lambda: not children_of(server.process.pid)))
        return str(told[0]["stopped"])

    def test_a_run_that_wants_more_memory(self) -> None:
        server = Server("--memory", "36M", "--share", "1170000")
        self.addCleanup(server.end)
        told = server.ask("position", parts=['Domineering(".....|.....|.....|.....")'])
        value = told["parts"][0]["value"]
        self.assertEqual((value["kind"], value["more"]), ("failed", True))
        self.assertIn("37,748,736 bytes of memory", value["advice"])
        self.assertEqual(server.ask("position", parts=["^"])["value"]["name"], "^")

    def test_no_more_runs_than_processors(self) -> None:
        with tempfile.TemporaryDirectory() as folder:
            slow = program(Path(folder), 'sleep 0.5\nexec "$REAL" "$@"')
            server = Server(changes={"CG": slow})
            self.addCleanup(server.end)
            asking = [
                threading.Thread(target=server.ask, args=("position",), kwargs={"parts": [f"{n}"]})
                for n in range(3 * processors())
            ]
            for one in asking:
                one.start()
            most = 0
            while any(one.is_alive() for one in asking):
                most = max(most, len(children_of(server.process.pid)))
        self.assertGreater(most, 0)
        self.assertLessEqual(most, processors())


if __name__ == "__main__":
    unittest.main()
