"""The explorer's server: what it answers, how it ends, and what the commands tell."""
from __future__ import annotations

import re
import signal
import socket
import subprocess
import tempfile
import threading
import unittest
from pathlib import Path
from typing import ClassVar

from cgcalc import Session
from tests.explorer import Server, children_of
from tests.places import ROOT, command, ended, environment, program, run, waits


class Answers(unittest.TestCase):
    """What the page is told is what the program answers."""

    server: ClassVar[Server]

    @classmethod
    def setUpClass(cls) -> None:
        cls.server = Server()
        cls.addClassCleanup(cls.server.end)

    def test_a_position(self) -> None:
        parts = ['Domineering("...|...")', "-{2|-1}", '-Toads("T.F")']
        told = self.server.ask("position", parts=parts)
        whole, session = 'Domineering("...|...") - {2|-1} - Toads("T.F")', Session()
        self.assertEqual(told["value"]["name"], str(session.value(whole)))
        self.assertEqual(told["outcome"]["winner"], session.outcome(whole))
        stops, thermograph = session.stops(whole), session.thermograph(whole)
        self.assertEqual((told["stops"]["left"], told["stops"]["right"]), tuple(map(str, stops)))
        self.assertEqual(told["thermo"]["text"], str(thermograph))
        self.assertEqual(told["parts"][2]["value"]["name"], "*")

    def test_the_moves_of_a_sum(self) -> None:
        parts = ['Domineering("...|...")', "{2||1|0}", 'Octal("0.7",3)', 'Hackenbush("0b1")', "0"]
        told, session = self.server.ask("moves", parts=parts), Session()
        self.assertEqual(told["checks"], ["equal"] * 5)
        for player in ("L", "R"):
            for move in told["moves"][player]:
                after = " + ".join(move["after"]) or "0"
                outcome = session.outcome(after)
                self.assertEqual(move["winner"], outcome)
                self.assertEqual(move["wins"], outcome in (player, "P"))
                leaves = " + ".join(move["leaves"]) or "0"
                self.assertEqual(move["value"]["name"], str(session.value(leaves)))
                self.assertEqual(move["temperature"], str(session.temperature(leaves)))
        best = told["moves"]["L"][told["choice"]["L"]]
        self.assertTrue(best["wins"] or not any(move["wins"] for move in told["moves"]["L"]))

    def test_the_choice_where_all_moves_lose(self) -> None:
        told = self.server.ask("moves", parts=['Domineering(".|.|.")', "-5"])
        stops = [int(move["stop"]) for move in told["moves"]["L"]]
        self.assertEqual([move["wins"] for move in told["moves"]["L"]], [False] * len(stops))
        self.assertEqual(stops[told["choice"]["L"]], max(stops))

    def test_reasons(self) -> None:
        told = self.server.ask("reasons", parts=['Toads("TT.FF")', '-Domineering("...|...")'])
        self.assertEqual(
            told["reasons"][0]["L"]["2-3"], {"why": "reversible", "by": "4-2", "word": "through"}
        )
        self.assertEqual(
            told["reasons"][1]["R"]["a1-a2"], {"why": "dominated", "by": "b1-b2", "word": "by"}
        )

    def test_the_worksheet_answers_as_the_program(self) -> None:
        lines = [
            "cg 2",
            "# two rooms",
            "g := {2|-1} + ^",
            "thermo g",
            "",
            "value {1,2}",
            "compare g ; h",
        ]
        told = self.server.ask("lines", lines=lines)["answers"]
        session = "\n".join(lines)
        status, written, _ = run_program(session)
        replies = [f"{at}: {one['text']}" for at, one in enumerate(told, 1) if one]
        self.assertEqual("\n".join(replies) + "\n", written)
        self.assertEqual(status, 1)
        self.assertEqual(
            self.server.send("POST", "/ask/complete", {"line": "thermo ga", "names": ["game"]})[1],
            {"lines": ["thermo game"]},
        )

    def test_limits_can_be_raised(self) -> None:
        board = 'Amazons("x...|....|....|...o")'
        told = self.server.ask("position", parts=[board])["parts"][0]["value"]
        self.assertEqual((told["kind"], told["more"]), ("positions", True))
        self.assertIn("65,536 positions", told["advice"])
        moves = self.server.ask("moves", parts=[board])
        self.assertGreater(len(moves["moves"]["L"]), 50)
        self.assertEqual(moves["checks"], ["unchecked"])

    def test_moves_are_listed_at_once(self) -> None:
        parts = ['Clobber("xo|ox")', "{2|-1}", '-Domineering("...|...")', 'Toads("x")']
        listed = self.server.ask("list", parts=parts)["moves"]
        told = self.server.ask("moves", parts=parts[:3])["moves"]
        for player in ("L", "R"):
            names = [(one["part"], one["name"], one["leaves"]) for one in listed[player]]
            wanted = [(one["part"], one["name"], one["leaves"]) for one in told[player]]
            self.assertEqual(names, [one for one in wanted if one[0] != 1])


def run_program(session: str) -> tuple[int, str, str]:
    """What the bare program answers to a session."""
    from cgcalc import find_program

    done = subprocess.run(
        [find_program()], input=session.encode(), capture_output=True, check=False
    )
    return done.returncode, done.stdout.decode(), done.stderr.decode()


class Ends(unittest.TestCase):
    """How it ends, and that it leaves nothing behind."""

    def test_signals(self) -> None:
        for number, status in ((signal.SIGINT, 130), (signal.SIGTERM, 143)):
            with tempfile.TemporaryDirectory() as folder:
                slow = program(Path(folder), 'sleep 60\nexec "$REAL" "$@"')
                server = Server(changes={"CG": slow})
                asking = threading.Thread(target=self.ask_in_vain, args=(server,))
                asking.start()
                self.assertTrue(waits(lambda: bool(children_of(server.process.pid))))
                runs = children_of(server.process.pid)
                self.assertEqual(server.end(number), (status, ""))
                asking.join(30)
                self.assertTrue(waits(lambda: all(map(ended, runs))))

    @staticmethod
    def ask_in_vain(server: Server) -> None:
        """Asks a question that gets no answer."""
        try:
            server.ask("position", parts=["^"])
        except (AssertionError, OSError, ValueError):
            pass

    def test_words(self) -> None:
        status, written, told = run("cg-explore", ["--port", "70000"])
        self.assertEqual((status, written), (2, ""))
        self.assertIn("a port is a number", told)
        with socket.create_server(("127.0.0.1", 0)) as taken:
            port = str(taken.getsockname()[1])
            status, _, told = run("cg-explore", ["--no-browser", "--port", port])
        self.assertEqual(status, 2)
        self.assertIn("Address already in use", told)
        status, _, told = run("cg-explore", ["--share", "1000000000"])
        self.assertEqual(status, 2)
        self.assertIn("share must be a number", told)

    def test_without_its_packages(self) -> None:
        with tempfile.TemporaryDirectory() as folder:
            (Path(folder) / "flask.py").write_text(
                "raise ModuleNotFoundError('none', name='flask')\n"
            )
            done = subprocess.run(
                command("cg-explore"),
                capture_output=True,
                check=False,
                text=True,
                cwd=ROOT,
                env=environment(PYTHONPATH=folder),
            )
        self.assertEqual(done.returncode, 2)
        self.assertIn("python3-flask and python3-waitress", done.stderr)

    def test_in_a_notebook(self) -> None:
        from cgcalc import domineering
        from cgcalc.explore import explore

        shown = explore(domineering("..|.."), "^")
        try:
            self.assertIn("<iframe", shown._repr_html_())
            self.assertEqual(shown.position.expression, 'Domineering("..|..") + ^')
            found = re.search(r"127\.0\.0\.1:([0-9]+)/\?key=([\w-]+)&frame=1#g=", shown.address)
            assert found
            server = Server.__new__(Server)
            server.port, server.key = int(found[1]), found[2]
            self.assertEqual(server.send("POST", "/ask/keep", {"parts": ["{2|-1}"]})[0], 200)
            self.assertEqual(shown.position.value.name, "{2|-1}")
            policy = server.send("GET", f"/?key={server.key}&frame=1")[2]["Content-Security-Policy"]
            self.assertIn("frame-ancestors http://127.0.0.1:*", policy)
        finally:
            shown.close()


if __name__ == "__main__":
    unittest.main()
