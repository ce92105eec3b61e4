"""Batches: small shares first, runs that fail, executors, and what is left behind."""
from __future__ import annotations

import multiprocessing
import os
import random
import subprocess
import sys
import tempfile
import threading
import time
import unittest
from concurrent.futures import Executor, ProcessPoolExecutor, ThreadPoolExecutor
from pathlib import Path
from typing import Any
from unittest import mock

from cgcalc import CgError, Failed, Refusal, Session, Value, WrongCall, find_program
from cgcalc.batch_limits import START_BYTES, Limits
from cgcalc.limits import CELLS, POSITIONS, SHARE
from cgcalc.runs import environment
from tests.places import ROOT, distinct, ended, program, waits

FULL = Refusal("full")


def boards(count: int, seed: int = 1) -> list[str]:
    """Temperatures of random boards of 3x4 cells, which cost from 5 to some 2,000 cells."""
    draw = random.Random(seed)
    rows = ["".join(draw.choice("...#") for _ in range(4)) for _ in range(3 * count)]
    return [f'temp Domineering("{"|".join(rows[at:at + 3])}")' for at in range(0, 3 * count, 3)]


def at_once(lines: list[str], share: int) -> list[str]:
    """What the program itself answers, with this share for each line."""
    words = [find_program(), "--cells", str(share * len(lines))]
    session = "\n".join(["cg 2", *lines, ""]).encode()
    done = subprocess.run(words, input=session, stdout=subprocess.PIPE, check=False)
    return [line.partition(": ")[2] for line in done.stdout.decode().splitlines()]


def cost_of(line: str, most: int = 1 << 17) -> int:
    """The least share with which the program answers a line."""
    least = 1
    while least < most:
        share = (least + most) // 2
        least, most = (share + 1, most) if at_once([line], share) == ["! full"] else (least, share)
    return least


class SmallSharesFirst(unittest.TestCase):
    """The replies are those at the given share, to the byte."""

    def test_beside_asking_at_once(self) -> None:
        lines = boards(150)
        for share in (700, 3_000, 20_000):
            wanted = at_once(lines, share)
            for cells in (9 * share, 100 * share):
                with self.subTest(share=share, cells=cells):
                    session = Session(share=share, cells=min(cells, 4_194_304))
                    self.assertEqual([str(reply) for reply in session.ask(lines)], wanted)

    def test_exact_costs_and_one_below(self) -> None:
        lines = [*boards(30, 2), 'value Domineering("...|...|...|....")', "value {0|0}"]
        lines[-2] = 'value Domineering("....|....|....|....")'
        for line in (lines[7], lines[-2], lines[-1]):
            cost = cost_of(line)
            for share in (cost - 1, cost):
                with self.subTest(line=line, share=share):
                    replies = Session(share=share, cells=8 * share).ask(lines)
                    self.assertEqual([str(reply) for reply in replies], at_once(lines, share))
                    self.assertEqual(replies[lines.index(line)] == FULL, share < cost)

    def test_definitions(self) -> None:
        session = Session(share=20_000, cells=40_000)
        session.define("g", 'Domineering("....|....|...#")')
        lines = [f"value g + {number}" for number in range(100)]
        replies = [str(reply) for reply in session.ask([*lines, "value *"])]
        self.assertEqual(replies[-1], "*")
        definition = 'g := Domineering("....|....|...#")'
        self.assertEqual(replies[:1], at_once([definition, lines[0]], 20_000)[1:])
        self.assertEqual(len(set(replies)), 101)

    def test_a_share_that_most_lines_need_is_asked_for_soon(self) -> None:
        with tempfile.TemporaryDirectory() as folder:
            words = Path(folder, "program.words")
            script = 'cat > "$0.$$"; echo "$2 $(wc -l < "$0.$$")" >> "$0.words"'
            noted = program(Path(folder), script + '; exec "$REAL" "$@" < "$0.$$"')
            session = Session(share=20_000, cells=200_000, processes=2, program=noted)
            lines = distinct('value Domineering("....|....|....")', 600)
            self.assertEqual(set(map(str, session.ask(lines))), set(at_once(lines[:1], 20_000)))
            runs = [list(map(int, line.split())) for line in words.read_text().splitlines()]
        small = [lines - 1 for cells, lines in runs if cells // (lines - 1) < 1_100]
        self.assertEqual(small, [64])
        self.assertLess(len(runs), 100)


class Failures(unittest.TestCase):
    """One line that fails costs no other its answer."""

    def setUp(self) -> None:
        holder = tempfile.TemporaryDirectory()
        self.addCleanup(holder.cleanup)
        self.folder = Path(holder.name)

    def spoilt(self, does: str) -> str:
        """A program that does something else where the number 13 stands in its session."""
        script = f'cat > "$0.$$"; if grep -q "value 13$" "$0.$$"; then {does}; fi'
        return program(self.folder, script + '; exec "$REAL" "$@" < "$0.$$"')

    def test_a_run_that_fails_is_asked_again_line_by_line(self) -> None:
        session = Session(program=self.spoilt("echo no memory >&2; exit 5"), processes=2)
        lines = [f"value {number}" for number in range(40)]
        replies = session.ask(lines)
        self.assertEqual(replies[13], Failed(5))
        self.assertEqual(getattr(replies[13], "told"), "no memory")
        self.assertEqual([str(reply) for reply in replies[14:]], [str(n) for n in range(14, 40)])

    def test_a_line_that_takes_too_long(self) -> None:
        session = Session(program=self.spoilt("sleep 1000"), timeout=1, processes=4)
        began = time.monotonic()
        replies = session.ask([f"value {number}" for number in range(30)])
        self.assertLess(time.monotonic() - began, 60)
        self.assertEqual(replies[13], Failed(124))
        told = getattr(replies[13], "explain")()
        self.assertEqual(told, "cg was stopped, since it took too long")
        self.assertEqual(len([reply for reply in replies if isinstance(reply, Value)]), 29)

    def test_memory(self) -> None:
        self.assertEqual(Session(memory=1 << 30).ask(["value 1"]), [Value("1")])
        session = Session(memory=10_000_000, share=200_000)
        self.assertEqual(session.ask(distinct("value 1", 3)), [Value("1")] * 3)
        line = f'value Domineering("{"|".join(["....."] * 4)}")'
        self.assertEqual(Session(memory=34_000_000, share=1_048_576).ask([line]), [Failed(5)])

    def test_wrong_limits(self) -> None:
        rows: list[tuple[dict[str, Any], str]] = [
            ({"timeout": 0}, "timeout is a number of seconds above 0, not 0"),
            ({"timeout": "1"}, "timeout is a number of seconds"),
            ({"memory": 0}, "memory must be a number"),
            ({"memory": 1_000_000}, "give more memory, or a smaller share"),
            ({"executor": 4}, "executor is one of concurrent.futures"),
            ({"share": "many"}, "share must be a number"),
        ]
        for words, told in rows:
            with self.subTest(words=words), self.assertRaisesRegex(WrongCall, told):
                Session(**words)
        with self.assertRaisesRegex(WrongCall, "a question is a line of text, not 3"):
            Session().ask(["value 1", 3])  # type: ignore[list-item]


class Leaving(unittest.TestCase):
    """Nothing is left running."""

    def setUp(self) -> None:
        holder = tempfile.TemporaryDirectory()
        self.addCleanup(holder.cleanup)
        self.folder = Path(holder.name)
        slow = 'read mark; read line; [ "$line" = "value 1" ] && echo "2: 1" && exit'
        self.slow = program(self.folder, slow + '; echo $$ >> "$0.runs"; exec sleep 1000')
        self.noted = self.folder / "program.runs"

    def runs(self) -> list[int]:
        """The runs that hang."""
        return [int(line) for line in self.noted.read_text().split()] if self.noted.exists() else []

    def all_ended(self) -> bool:
        """Whether all of them have ended."""
        return all(ended(process) for process in self.runs())

    def test_a_context_that_is_left(self) -> None:
        session = Session(share=10, cells=10, processes=3, program=self.slow)
        threads = threading.active_count()
        with session.replies(["value 1", *distinct("value 2", 40)]) as replies:
            self.assertEqual((next(replies), replies.done, replies.total), (Value("1"), 1, 41))
            self.assertTrue(waits(lambda: len(self.runs()) >= 2))
        self.assertTrue(waits(self.all_ended))
        self.assertLessEqual(len(self.runs()), 6)
        self.assertEqual(threading.active_count(), threads)
        self.assertEqual(list(replies), [])

    def test_the_interpreter_ends(self) -> None:
        script = f"""
import time
from concurrent.futures import ThreadPoolExecutor
from cgcalc import Session
limits = dict(share=10, cells=10, processes=3, program={self.slow!r})
lines = [f"value {{n}}" for n in range(1, 42)]
replies = Session(executor=EXECUTOR, **limits).replies(lines)
print(next(replies), flush=True)
while len(open({str(self.noted)!r}).read().split()) < 2: time.sleep(0.02)
"""
        killed = "import os, signal; os.kill(os.getpid(), signal.SIGKILL)"
        for executor, ending in [("None", ""), ("ThreadPoolExecutor(3)", ""), ("None", killed)]:
            self.noted.write_text("")
            done = subprocess.run(
                [sys.executable, "-c", script.replace("EXECUTOR", executor) + ending],
                env={**os.environ, "PYTHONPATH": str(ROOT / "python")},
                stdout=subprocess.PIPE,
                timeout=60,
                check=False,
            )
            self.assertEqual(done.stdout, b"1\n")
            self.assertTrue(waits(self.all_ended), ending)

    def test_a_window_of_runs(self) -> None:
        noted = program(self.folder, 'echo >> "$0.count"; exec "$REAL" "$@"')
        session = Session(share=10, cells=10, processes=2, program=noted)
        with session.replies(distinct("value 1", 200)) as replies:
            self.assertEqual([next(replies) for _ in range(10)], [Value("1")] * 10)
            time.sleep(0.3)
            count = len((self.folder / "program.count").read_text())
        self.assertLessEqual(count, 10 + 4 * 2 + 1)


class Progress(unittest.TestCase):
    """Who is told how far a batch is."""

    def test_a_function(self) -> None:
        told: list[tuple[int, int]] = []
        Session().ask(["value 1"] * 3, progress=lambda done, total: told.append((done, total)))
        self.assertEqual(told, [(1, 3), (2, 3), (3, 3)])

    def test_a_bar(self) -> None:
        made = mock.Mock()

        class Bar:
            """A bar as tqdm makes them."""

            def __init__(self, total: int) -> None:
                made.total(total)

            def update(self, count: int) -> None:
                """Moves the bar."""
                made.update(count)

            def close(self) -> None:
                """Ends the bar."""
                made.close()

        Session().ask(["value 1"] * 2, progress=Bar)
        wanted = [mock.call.total(2), mock.call.update(1), mock.call.update(1), mock.call.close()]
        self.assertEqual(made.mock_calls, wanted)


class Executors(unittest.TestCase):
    """Who makes the runs."""

    def test_threads_and_processes(self) -> None:
        lines = boards(200)
        wanted = at_once(lines, 3_000)
        for kind in (ThreadPoolExecutor, ProcessPoolExecutor):
            with kind(2) as executor, self.subTest(kind=kind):
                session = Session(share=3_000, cells=60_000, executor=executor, processes=2)
                self.assertEqual([str(reply) for reply in session.ask(lines)], wanted)
                self.assertEqual(session.ask(["value 1"]), [Value("1")])
        with self.assertRaisesRegex(CgError, "the executor takes no run"):
            session.ask(["value 1"])

    def test_processes_end_soon_when_nobody_waits_for_their_runs(self) -> None:
        with tempfile.TemporaryDirectory() as folder:
            script = 'read mark; read line; echo $$ >> "$0.runs"; [ "$line" = "value 1" ] || exec'
            slow = program(Path(folder), script + ' sleep 1000; echo "2: 1"')
            noted = Path(folder, "program.runs")
            for way in ("fork", "spawn"):
                noted.unlink(missing_ok=True)
                context = multiprocessing.get_context(way)
                with ProcessPoolExecutor(2, mp_context=context) as executor:
                    session = Session(share=10, cells=10, program=slow, executor=executor)
                    lines = [f"value {number}" for number in range(1, 40)]
                    with session.replies(lines) as replies:
                        self.assertEqual(next(replies), Value("1"))
                        self.assertTrue(waits(lambda: noted.read_text().count("\n") >= 2))
                    left = time.monotonic()
                self.assertLess(time.monotonic() - left, 20)
                runs = [int(line) for line in noted.read_text().split()]
                self.assertTrue(waits(lambda: all(map(ended, runs))))

    def test_an_executor_that_loses_runs(self) -> None:
        for losses, answers in [(2, True), (3, False)]:
            with ThreadPoolExecutor(1) as threads:
                session = Session(executor=Losing(threads, losses))
                if answers:
                    self.assertEqual(session.ask(["value 1"]), [Value("1")])
                else:
                    with self.assertRaisesRegex(CgError, "lost a run 3 times: FileNotFoundError"):
                        session.ask(["value 1"])


class Losing(Executor):
    """An executor that loses its first calls."""

    def __init__(self, executor: Executor, losses: int) -> None:
        self.executor = executor
        self.losses = losses

    def submit(self, function: Any, /, *arguments: Any, **named: Any) -> Any:
        """A call that may be lost."""
        self.losses -= 1
        if self.losses >= 0:
            return self.executor.submit(os.stat, "/nowhere")
        return self.executor.submit(function, *arguments, **named)


class Memory(unittest.TestCase):
    """What the runs are told of memory, and what they take of it together."""

    def test_many_processors_take_little(self) -> None:
        for processes, most in [(1, 128 << 20), (4, 512 << 20), (64, 2 << 30)]:
            limits = Limits(SHARE, POSITIONS, CELLS, processes, None, None, None, None)
            runs = limits.most_busy // limits.workers + 1
            self.assertLessEqual(runs * limits.table * START_BYTES, most)

    def test_what_the_user_says_stays(self) -> None:
        said = "glibc.malloc.hugetlb=0"
        with mock.patch.dict(os.environ, {"GLIBC_TUNABLES": said}):
            self.assertEqual(environment()["GLIBC_TUNABLES"], said)
        with mock.patch.dict(os.environ, {"GLIBC_TUNABLES": "glibc.malloc.perturb=1"}):
            with mock.patch("os.confstr", lambda _: "glibc 2.36"):
                told = environment()["GLIBC_TUNABLES"]
                self.assertEqual(told, "glibc.malloc.perturb=1:glibc.malloc.hugetlb=1")
            with mock.patch("os.confstr", lambda _: "glibc 2.31"):
                self.assertEqual(environment()["GLIBC_TUNABLES"], "glibc.malloc.perturb=1")
