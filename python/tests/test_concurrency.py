"""Threads, asyncio, signals and killed workers: nothing hangs, and nothing is mixed up."""
from __future__ import annotations

import ast
import asyncio
import os
import signal
import subprocess
import sys
import threading
import time
from concurrent.futures import ProcessPoolExecutor, ThreadPoolExecutor
from pathlib import Path

import pytest

from cgcalc import CgError, Failed, Game, Session, Value
from tests.places import ROOT, ended, environment, program, waits

PACKAGE = ROOT / "python" / "cgcalc"
LINES = [f"value {number}" for number in range(40)]
VALUES = [Value(str(number)) for number in range(40)]


def test_threads_share_a_session() -> None:
    session = Session(share=100, cells=1_000, processes=2)
    game = Game("{2|-1}", session=session)

    def ask(number: int) -> list[object]:
        lines = [f"value {number} + {line[6:]}" for line in LINES]
        return [*session.ask(lines), game.mean, session.define(f"g{number}", "^").name]

    with ThreadPoolExecutor(8) as threads:
        found = list(threads.map(ask, range(16)))
    for number, replies in enumerate(found):
        assert replies[:-2] == [Value(str(number + at)) for at in range(40)]
        assert replies[-2:] == [game.mean, "^"]
    assert sorted(session.definitions) == sorted(f"g{number}" for number in range(16))


def test_asyncio() -> None:
    session = Session(share=100, cells=1_000, processes=2)

    async def ask() -> list[list[object]]:
        asked = [asyncio.to_thread(session.ask, LINES) for _ in range(5)]
        return [list(replies) for replies in await asyncio.gather(*asked)]

    assert asyncio.run(ask()) == [VALUES] * 5


@pytest.mark.parametrize("number", [signal.SIGINT, signal.SIGTERM])
def test_signals_end_the_runs(tmp_path: Path, number: signal.Signals) -> None:
    slow = program(tmp_path, 'echo $$ >> "$0.runs"; exec sleep 1000')
    script = "import signal; from cgcalc import Session\n"
    script += "signal.signal(signal.SIGINT, signal.default_int_handler)\n"
    script += f"Session(program={slow!r}).ask(['value 1', 'value 2'])\n"
    changes = environment(PYTHONPATH=str(ROOT / "python"))
    with subprocess.Popen([sys.executable, "-c", script], env=changes, stderr=-1) as running:
        noted = tmp_path / "program.runs"
        assert waits(noted.exists) and waits(lambda: bool(noted.read_text()))
        running.send_signal(number)
        _, told = running.communicate(timeout=60)
    assert running.returncode == -number
    assert (b"KeyboardInterrupt" in told) is (number == signal.SIGINT)
    assert waits(lambda: all(ended(int(line)) for line in noted.read_text().split()))


def test_a_run_that_is_killed_is_asked_again_line_by_line(tmp_path: Path) -> None:
    once = program(tmp_path, 'mkdir "$0.once" 2> /dev/null && kill -9 $$; exec "$REAL" "$@"')
    assert Session(program=once).ask(LINES) == VALUES
    always = program(tmp_path, "kill -9 $$")
    assert Session(program=always).ask(LINES[:2]) == [Failed(-9)] * 2


def test_a_pool_whose_workers_are_killed(tmp_path: Path) -> None:
    noted = program(tmp_path, 'echo $PPID >> "$0.runs"; exec sleep 1000')
    runs = tmp_path / "program.runs"

    def kill() -> None:
        assert waits(runs.exists) and waits(lambda: bool(runs.read_text()))
        os.kill(int(runs.read_text().split()[0]), signal.SIGKILL)

    killer = threading.Thread(target=kill)
    killer.start()
    began = time.monotonic()
    with ProcessPoolExecutor(1) as executor:
        with pytest.raises(CgError, match="the executor"):
            Session(program=noted, executor=executor).ask(["value 1"])
    killer.join()
    assert time.monotonic() - began < 100


def test_the_syntax_is_that_of_the_oldest_python() -> None:
    files = [*PACKAGE.rglob("*.py"), *Path(__file__).parent.glob("*.py")]
    assert len(files) > 60
    for path in files:
        ast.parse(path.read_text(encoding="utf-8"), str(path), feature_version=(3, 9))
