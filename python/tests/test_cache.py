"""Replies that stay in a file: what is found again, and what spoils nothing."""
from __future__ import annotations

import multiprocessing
import os
import pickle
import shutil
import threading
import time
from concurrent.futures import ThreadPoolExecutor
from pathlib import Path
from typing import Any
from unittest import mock

import pytest

from cgcalc import CgError, Failed, Game, Refusal, Session, Value, WrongCall, find_program
from cgcalc.cache import Cache
from tests.places import program, run

COUNT = 'echo >> "$0.runs"; exec "$REAL" "$@"'


def runs(session: Session) -> int:
    """How many runs the program of a session made."""
    noted = Path(f"{session.program}.runs")
    return len(noted.read_text()) if noted.exists() else 0


@pytest.fixture(name="counted")
def fixture_counted(tmp_path: Path) -> Any:
    """Makes sessions that share a file, and count their runs together."""
    counting = program(tmp_path, COUNT)

    def made(**limits: Any) -> Session:
        return Session(program=counting, cache=tmp_path / "deep" / "replies", **limits)

    return made


def test_a_second_session_asks_nothing(counted: Any) -> None:
    lines = [f"value {number}" for number in range(50)] + ["value {1,2}", "mean {2|-1}"]
    first = counted().ask(lines)
    asked = runs(counted())
    assert asked and counted().ask(lines) == first
    assert Game("{2|-1}", session=counted()).mean == first[-1].mean
    assert runs(counted()) == asked
    assert counted().ask([*lines, "value 50"])[-1] == Value("50")
    assert runs(counted()) == asked + 1


def test_what_a_reply_depends_on(counted: Any, tmp_path: Path) -> None:
    one, other = counted(share=4), counted(share=5)
    assert one.ask(["value {0|0}"]) == [Refusal("full")] == one.ask(["value {0|0}"])
    assert other.ask(["value {0|0}"]) == [Value("*")]
    assert counted(share=4).ask(["value {0|0}"]) == [Refusal("full")]
    board = ['value Domineering("...|...")']
    assert counted(positions=7).ask(board) == [Refusal("positions")]
    assert counted(positions=8).ask(board) == [Value("{2|-1/2}")]
    named, renamed = counted(), counted()
    named.define("g", "1")
    renamed.define("g", "2")
    assert named.ask(["value g"]) == [Value("1")] and renamed.ask(["value g"]) == [Value("2")]
    assert counted().ask(["value g"])[0].kind == "name"
    assert counted().ask(["value 7", "mean 7"])[0] == Value("7")
    before = runs(one)
    (tmp_path / "program").write_text((tmp_path / "program").read_text() + "# another\n")
    assert counted(share=5).ask(["value {0|0}"]) == [Value("*")]
    assert runs(one) == before + 1


def test_failures_are_not_kept(tmp_path: Path) -> None:
    path = tmp_path / "replies"
    failing = program(tmp_path, '[ -e "$0.well" ] || exit 5; exec "$REAL" "$@"')
    assert Session(program=failing, cache=path).ask(["value 1"]) == [Failed(5)]
    (tmp_path / "program.well").touch()
    assert Session(program=failing, cache=path).ask(["value 1"]) == [Value("1")]


def fill(path: Path, start: int) -> None:
    """Asks a few hundred questions, of which other processes ask some at the same time."""
    lines = [f"value {number}" for number in range(start, start + 300)]
    replies = Session(cache=path).ask(lines)
    assert replies == [Value(str(number)) for number in range(start, start + 300)]


@pytest.mark.parametrize("way", ["fork", "spawn"])
def test_many_processes_and_threads_at_once(tmp_path: Path, way: str) -> None:
    path = tmp_path / "replies"
    session = Session(cache=path)
    assert session.ask(["value 0"]) == [Value("0")]
    context: Any = multiprocessing.get_context(way)
    children = [context.Process(target=fill, args=(path, 100 * at)) for at in range(5)]
    for child in children:
        child.start()
    threads = [threading.Thread(target=fill, args=(path, 100 * at)) for at in range(5)]
    for thread in threads:
        thread.start()
    for one in (*children, *threads):
        one.join(100)
    assert [child.exitcode for child in children] == [0] * 5
    quick = Session(cache=path, program=find_program())
    with mock.patch("cgcalc.runs.Runs.start", side_effect=AssertionError):
        assert quick.ask(["value 699", "value 0"]) == [Value("699"), Value("0")]


def test_a_forked_process_has_a_connection_of_its_own(tmp_path: Path) -> None:
    session = Session(cache=tmp_path / "replies")
    assert session.cache is not None and session.ask(["value 0"]) == [Value("0")]
    before = session.cache._connection()
    child = os.fork()
    if child == 0:
        well = session.ask(["value 0", "value 1"]) == [Value("0"), Value("1")]
        os._exit(0 if well and session.cache._connection() is not before else 1)
    assert os.waitstatus_to_exitcode(os.waitpid(child, 0)[1]) == 0
    assert session.cache._connection() is before
    assert session.ask(["value 1"]) == [Value("1")]


def test_its_size_is_bounded(tmp_path: Path) -> None:
    cache = Cache(tmp_path / "replies", most_bytes=100_000)
    for start in range(0, 20_000, 500):
        cache.keep((b"%016d" % at, "{1|0}" * 4) for at in range(start, start + 500))
    assert (tmp_path / "replies").stat().st_size < 300_000
    keys = [b"%016d" % at for at in (1, 19_999)]
    assert list(cache.find(keys)) == keys[1:]


def test_a_file_that_can_not_be_used(tmp_path: Path) -> None:
    (tmp_path / "text").write_text("no replies " * 1_000)
    for wrong in (tmp_path / "text", tmp_path, tmp_path / "text" / "below"):
        with pytest.raises(WrongCall, match="cache"):
            Session(cache=wrong)
    with pytest.raises(WrongCall, match="cache is True, or the path of a file, not 3"):
        Session(cache=3)  # type: ignore[arg-type]
    with ThreadPoolExecutor(1) as executor, pytest.raises(WrongCall, match="has to know"):
        Session(cache=tmp_path / "replies", executor=executor)


def test_a_file_that_is_spoilt_later(tmp_path: Path) -> None:
    cache = Cache(tmp_path / "replies")
    session = Session(cache=cache)
    assert session.ask(["value 1"]) == [Value("1")]
    for name in os.listdir(tmp_path):
        (tmp_path / name).write_bytes(b"spoilt " * 2_000)
    cache._own = threading.local()
    with pytest.warns(RuntimeWarning, match="isn't used"):
        assert session.ask(["value 1"]) == [Value("1")]


def test_a_program_that_is_gone(tmp_path: Path) -> None:
    session = Session(program=str(tmp_path / "none"), cache=tmp_path / "replies")
    with pytest.raises(CgError, match="none can't be read: No such file"):
        session.ask(["value 1"])


def test_a_cache_travels(tmp_path: Path) -> None:
    session = Session(cache=tmp_path / "replies")
    again = pickle.loads(pickle.dumps(session))
    assert again.cache.path == tmp_path / "replies" and again.ask(["value 1"]) == [Value("1")]


def test_commands(tmp_path: Path) -> None:
    counting = {"CG": program(tmp_path, COUNT), "XDG_CACHE_HOME": str(tmp_path / "own")}
    words = ["value {columns}", "--columns", "1-40"]
    wanted = run("cg-table", words)
    for option in (["--cache"], ["--cache-file", str(tmp_path / "replies")]):
        for _ in range(2):
            assert run("cg-table", [*words, *option], changes=counting) == wanted
    assert len((tmp_path / "program.runs").read_text()) == 2
    assert (tmp_path / "own" / "cgcalc" / "replies.sqlite").exists()
    assert run("cg-shell", ["--cache", "-c", "value 7"], changes=counting) == (0, "7\n", "")
    assert len((tmp_path / "program.runs").read_text()) == 2
    shutil.rmtree(tmp_path / "own")


def test_a_table_is_made_again_at_once(tmp_path: Path) -> None:
    words = ["mean {columns}/2", "--columns", "1-5000", "--cache-file", str(tmp_path / "replies")]
    first = run("cg-table", words)
    began = time.process_time(), os.times().children_user
    assert run("cg-table", words) == first and first[0] == 0
    assert os.times().children_user - began[1] < 2
