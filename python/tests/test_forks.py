"""Processes that are forked or spawned while runs are under way: each has its own."""
from __future__ import annotations

import multiprocessing
import os
import time
from pathlib import Path
from typing import Any, Iterator

import pytest

from cgcalc import CgError, Game, Session, Value
from tests.places import program

SLOW = 'cat > "$0.$$"; sleep 0.5; exec "$REAL" "$@" < "$0.$$"'
LINES = [f"value {number}" for number in range(12)]
VALUES = [Value(str(number)) for number in range(12)]


@pytest.fixture(name="slow")
def fixture_slow(tmp_path: Path) -> Session:
    """A session whose runs take half a second, a question each."""
    return Session(share=10, cells=10, processes=2, program=program(tmp_path, SLOW))


@pytest.fixture(name="children")
def fixture_children() -> Iterator[list[int]]:
    """Processes that are ended with the test."""
    children: list[int] = []
    yield children
    for child in children:
        os.kill(child, 9)
        os.waitpid(child, 0)


def ask_alone() -> None:
    """What a process that was forked asks; its end tells whether that was answered."""
    assert Session().ask(LINES) == VALUES
    assert Game("{1|0}").mean == Game("1/2").mean


def test_a_forked_process_leaves_the_runs_of_its_parent(slow: Session) -> None:
    context = multiprocessing.get_context("fork")
    with slow.replies(LINES) as replies:
        assert next(replies) == VALUES[0]
        for _ in range(3):
            child = context.Process(target=time.sleep, args=(0,))
            child.start()
            child.join(60)
            assert child.exitcode == 0
        assert list(replies) == VALUES[1:]


@pytest.mark.parametrize("way", ["fork", "spawn", "forkserver"])
def test_a_new_process_asks_for_itself(slow: Session, way: str) -> None:
    context: Any = multiprocessing.get_context(way)
    with slow.replies(LINES) as replies:
        assert next(replies) == VALUES[0]
        children = [context.Process(target=ask_alone) for _ in range(5)]
        for child in children:
            child.start()
        for child in children:
            child.join(100)
        assert [child.exitcode for child in children] == [0] * 5
        assert list(replies) == VALUES[1:]


def test_a_process_forked_at_any_moment_does_not_hang() -> None:
    session = Session(share=10, cells=10, processes=3)
    context = multiprocessing.get_context("fork")
    replies = session.replies(f"value {number}" for number in range(2_000))
    for number in range(15):
        assert next(replies) == Value(str(number))
        child = context.Process(target=ask_alone)
        child.start()
        child.join(100)
        assert child.exitcode == 0
    replies.close()


def test_a_forked_process_that_lives_on_holds_nothing_up(
    slow: Session, children: list[int]
) -> None:
    with slow.replies(LINES) as replies:
        for number in range(6):
            assert next(replies) == VALUES[number]
            child = os.fork()
            if child == 0:
                time.sleep(1_000)
                os._exit(0)
            children.append(child)
        began = time.monotonic()
        assert list(replies) == VALUES[6:]
    assert time.monotonic() - began < 100


def test_replies_belong_to_the_process_that_asked(slow: Session) -> None:
    replies = slow.replies(LINES)
    assert next(replies) == VALUES[0]
    child = os.fork()
    if child == 0:
        try:
            list(replies)
        except CgError as error:
            os._exit(7 if "ask anew" in str(error) else 1)
        os._exit(2)
    assert os.waitstatus_to_exitcode(os.waitpid(child, 0)[1]) == 7
    assert list(replies) == VALUES[1:]


def test_replies_that_did_not_begin_can_be_had_by_a_forked_process() -> None:
    replies = Session().replies(LINES)
    child = os.fork()
    if child == 0:
        os._exit(0 if list(replies) == VALUES else 1)
    assert os.waitstatus_to_exitcode(os.waitpid(child, 0)[1]) == 0
    assert list(replies) == VALUES
