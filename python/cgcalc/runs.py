"""Runs of the program: how one is started, limited and stopped, and threads that wait for them."""
from __future__ import annotations

import atexit
import os
import shutil
import signal
import subprocess
import tempfile
import threading
import weakref
from concurrent.futures import Executor, Future
from dataclasses import dataclass, field
from functools import lru_cache
from math import inf
from queue import SimpleQueue
from typing import Any, BinaryIO, Callable, Optional, TypeVar, cast

from cgcalc.marks import Mark, Place, this_machine, is_there
from cgcalc.program import OUT_OF_TIME, CgError, find_program

LIMITED = ["/bin/sh", "-c", 'ulimit -v "$0" 2>/dev/null; exec "$@"']
"""The words before the program's that limit the memory of a run, in KiB."""
CANT_BE_RUN = (126, 127)
"""The statuses by which such words tell that there is no program behind them."""
TUNABLES, HUGE_PAGES = "GLIBC_TUNABLES", "glibc.malloc.hugetlb"
OLDEST_WITH_HUGE_PAGES = (2, 35)
LOOK = 0.1
"""The seconds after which a run that came from another process looks whether that still waits."""
LONGEST_WAIT = 100_000.0
"""The most seconds that one call of the system waits."""
Answer = TypeVar("Answer")


@dataclass(frozen=True)
class RunEnd:
    """How a run ended: its status, what it wrote, and the last line on its standard error."""

    status: int
    written: bytes = b""
    told: str = ""


class Runs:
    """The runs of one batch that are under way in this process, which can be stopped together.

    Where a run is sent to another process it goes with runs of its own there. A process that forks
    has its runs for itself: the new one neither stops them nor waits for what its threads hold.
    """

    def __init__(self, travels: bool = False) -> None:
        self._running: set[subprocess.Popen[bytes]] = set()
        self._stopped = False
        self._process = os.getpid()
        self._mark = Mark() if travels else None
        self._watched: Optional[Place] = None
        _ALIVE.add(self)

    def __reduce__(self) -> tuple[object, ...]:
        return _runs_elsewhere, (self._mark.place if self._mark else self._watched,)

    @property
    def is_watched(self) -> bool:
        """Whether they end where those that they came from are stopped."""
        return self._watched is not None

    @property
    def are_wanted(self) -> bool:
        """Whether those that they came from, if they did, still run."""
        return self._watched is None or is_there(self._watched)

    @property
    def is_own(self) -> bool:
        """Whether they were begun in this process, not in the one that it was forked from."""
        return self._process == os.getpid()

    def start(self, words: list[str], session: bytes) -> subprocess.Popen[bytes]:
        """Starts a program that reads a session."""
        with _input_of(session) as given, _STARTING:
            if self._stopped or not self.is_own:
                raise CgError("the runs were stopped")
            try:
                process = subprocess.Popen(
                    words,
                    stdin=given,
                    stdout=subprocess.PIPE,
                    stderr=subprocess.PIPE,
                    env=environment(),
                    start_new_session=True,
                )
            except OSError as error:
                raise CgError(f"{words[0]} can't be run: {error.strerror}") from error
            self._running.add(process)
            return process

    def forget(self, process: subprocess.Popen[bytes]) -> None:
        """Takes note that a run has ended."""
        with _STARTING:
            self._running.discard(process)

    def stop(self) -> None:
        """Ends the runs that are under way, and lets no other begin."""
        if not self.is_own:
            return
        with _STARTING:
            self._stopped = True
            if self._mark:
                self._mark.remove()
            for process in self._running:
                kill(process)


def _runs_elsewhere(watched: Optional[Place]) -> Runs:
    """Runs in a process to which some were sent."""
    runs = Runs()
    runs._watched = watched if watched and watched[0] == this_machine() else None
    return runs


_STARTING = threading.RLock()
"""Held where a run starts or is taken off the list; no process is forked meanwhile."""
_ALIVE: weakref.WeakSet[Runs] = weakref.WeakSet()


def _stop_all() -> None:
    """Ends what runs where the interpreter exits."""
    for runs in list(_ALIVE):
        runs.stop()


# Pools of concurrent.futures wait for their threads before what atexit registers is called.
getattr(threading, "_register_atexit", atexit.register)(_stop_all)
os.register_at_fork(
    before=_STARTING.acquire, after_in_parent=_STARTING.release, after_in_child=_STARTING.release
)


def _input_of(session: bytes) -> BinaryIO:
    """A file without a name that has a session, from its beginning.

    It is no pipe: a process that is forked meanwhile would keep the pipe open, and the program
    would wait for its end.
    """
    try:
        given: BinaryIO = open(os.memfd_create("session"), "w+b")
    except (AttributeError, OSError):
        given = cast(BinaryIO, tempfile.TemporaryFile())
    given.write(session)
    given.seek(0)
    return given


@dataclass(frozen=True)
class Job:
    """A run of the program: what it reads, and what it may take.

    Without a program's path the one is run that is found where the run is.
    """

    session: bytes
    cells: int
    positions: int
    workers: int
    program: Optional[str] = None
    timeout: Optional[float] = None
    memory: Optional[int] = None
    runs: Runs = field(default_factory=Runs, compare=False)

    def words(self) -> list[str]:
        """The words of the command line."""
        limited = [] if self.memory is None else [*LIMITED, str(self.memory // 1024)]
        limited = [*lifeline(), *limited]
        options = {"cells": self.cells, "positions": self.positions, "workers": self.workers}
        words = [word for name, number in options.items() for word in (f"--{name}", str(number))]
        return [*limited, self.program or find_program(), *words]


def run(job: Job) -> RunEnd:
    """Runs the program, and waits for its end. A run that takes too long is ended."""
    if not job.runs.are_wanted:
        raise CgError("the runs were stopped")
    process = job.runs.start(job.words(), job.session)
    try:
        written, told = _awaited(process, job)
    except subprocess.TimeoutExpired:
        return RunEnd(OUT_OF_TIME)
    finally:
        if process.returncode is None:
            kill(process)
            process.communicate()
        job.runs.forget(process)
    lines = told.decode(errors="replace").strip().splitlines() or [""]
    if process.returncode in CANT_BE_RUN:
        raise CgError(f"{job.program or find_program()} can't be run: {lines[-1]}")
    return RunEnd(process.wait(), written, lines[-1])


def _awaited(process: subprocess.Popen[bytes], job: Job) -> tuple[bytes, bytes]:
    """What a run writes until it ends; TimeoutExpired where it takes too long."""
    step = LOOK if job.runs.is_watched else LONGEST_WAIT
    left = inf if job.timeout is None else job.timeout
    while True:
        try:
            return process.communicate(timeout=min(step, left))
        except subprocess.TimeoutExpired:
            left -= step
            if left <= 0:
                raise
            if not job.runs.are_wanted:
                raise CgError("the runs were stopped") from None


@lru_cache(maxsize=None)
def lifeline() -> tuple[str, ...]:
    """The words before the program's that end it with the process that waits for it.

    Without the tool setpriv there are none, and a run goes on to its end where that process is
    killed.
    """
    words = (shutil.which("setpriv") or "setpriv", "--pdeathsig", "KILL")
    try:
        tried = subprocess.run(
            [*words, "true"], stdin=subprocess.DEVNULL, capture_output=True, check=False
        )
    except OSError:
        return ()
    return words if tried.returncode == 0 else ()


def kill(process: subprocess.Popen[bytes]) -> None:
    """Ends a run, with what it may have started itself."""
    if process.returncode is None:
        try:
            os.killpg(process.pid, signal.SIGKILL)
        except (ProcessLookupError, PermissionError):
            process.kill()


def environment() -> dict[str, str]:
    """The environment of a run: large pages where the C library has them and nothing says no."""
    variables = dict(os.environ)
    tunables = variables.get(TUNABLES, "")
    if HUGE_PAGES not in tunables and _has_huge_pages():
        variables[TUNABLES] = f"{tunables}:{HUGE_PAGES}=1".lstrip(":")
    return variables


def _has_huge_pages() -> bool:
    try:
        name, _, version = (os.confstr("CS_GNU_LIBC_VERSION") or "").partition(" ")
        numbers = tuple(int(number) for number in version.split("."))
    except (AttributeError, OSError, ValueError):
        return False
    return name == "glibc" and numbers >= OLDEST_WITH_HUGE_PAGES


class Threads(Executor):
    """Makes calls in threads that the end of the interpreter doesn't wait for."""

    def __init__(self, most: int) -> None:
        self._most = most
        self._waiting: SimpleQueue[Optional[Callable[[], None]]] = SimpleQueue()
        self._threads: list[threading.Thread] = []

    def submit(
        self, function: Callable[..., Answer], /, *arguments: Any, **named: Any
    ) -> Future[Answer]:
        """A call that is to be made."""
        future: Future[Answer] = Future()

        def call() -> None:
            if future.set_running_or_notify_cancel():
                try:
                    future.set_result(function(*arguments, **named))
                except BaseException as error:
                    future.set_exception(error)

        self._waiting.put(call)
        if len(self._threads) < self._most:
            self._threads.append(threading.Thread(target=self._work, daemon=True))
            self._threads[-1].start()
        return future

    def _work(self) -> None:
        while call := self._waiting.get():
            call()

    def shutdown(self, wait: bool = True, *, cancel_futures: bool = False) -> None:
        """Ends the threads when the calls are made."""
        for _ in self._threads:
            self._waiting.put(None)
        if wait:
            for thread in self._threads:
                thread.join()
