"""Asking the program for many visitors: few runs at once, each with limits, and all can be stopped.

Each request has an `Asking`. Its questions go to runs of one pool, which has a thread for each
processor. Replies are kept up to a number of bytes, so that going back asks nothing.
"""
from __future__ import annotations

import threading
from concurrent.futures import Executor, Future, ThreadPoolExecutor
from typing import Any, Callable, Iterable, Optional, Sequence, TypeVar

from cgcalc.asked import questions_in
from cgcalc.batch import Batch
from cgcalc.batch_limits import Limits as BatchLimits
from cgcalc.explore.kept import Answer, Kept, Limits
from cgcalc.limits import CELLS
from cgcalc.processors import processors
from cgcalc.program import CgError
from cgcalc.refusals import Refusal
from cgcalc.replies import Reply
from cgcalc.session import Session
from cgcalc.stream import Replies

Result = TypeVar("Result")
VALUE_SHARES = (4_096, 65_536)
"""The shares that questions about values have before the one that they may have."""
BOARD_SHARES = (65_536,)
"""Those of questions about boards. A try that fails has listed all positions, which takes time."""
CELLS_A_RUN = 131_072
"""Questions that have more cells together go to several runs, if there are processors."""
CELLS_AT_ONCE = 1 << 20
"""Questions that are alike and have fewer cells together are asked without trying some first."""
TRIED_FIRST = 4
MOST_ASKINGS = 32
MOST_EFFORT = 2
LONGEST = 1_000_000
"""The most seconds that a clock is set to."""


class OneShare(BatchLimits):
    """The limits of a batch that asks all lines with their whole share at once."""

    def shares(self, lines: int) -> list[int]:
        """The one share."""
        return [self.share]


class Stopped(CgError):
    """The questions of a request were stopped, by the visitor or since they took too long."""


class Busy(CgError):
    """Too many requests wait for answers."""


class Desk:
    """Where all requests ask: one pool of runs, the limits, and the kept replies."""

    def __init__(self, limits: Limits, program: Optional[str] = None) -> None:
        self.limits, self.program = limits, program
        self.processors = processors()
        self.kept = Kept()
        self._pool = ThreadPoolExecutor(self.processors, thread_name_prefix="cg-explore")
        self._askings: dict[str, Asking] = {}
        self._lock = threading.Lock()

    def begin(self, name: str, effort: int = 0) -> Asking:
        """The asking of a request, which can be stopped by its name."""
        asking = Asking(self, self.limits.raised(effort), self._pool)
        with self._lock:
            if len(self._askings) >= MOST_ASKINGS:
                raise Busy("too many questions are under way: stop some, or wait")
            if name in self._askings:
                raise Busy("a request with this name is under way")
            self._askings[name] = asking
        return asking

    def end(self, name: str) -> None:
        """Forgets an asking, and stops what of it is under way."""
        with self._lock:
            asking = self._askings.pop(name, None)
        if asking:
            asking.close()

    def stop(self, name: str) -> bool:
        """Stops an asking; whether there was one."""
        with self._lock:
            asking = self._askings.get(name)
        if asking:
            asking.stop("you stopped it")
        return asking is not None

    def check(self) -> None:
        """Raises what is wrong with the limits."""
        try:
            self.begin("limits").session(self.limits.share)
        finally:
            self.end("limits")

    @property
    def under_way(self) -> int:
        """How many requests are under way."""
        return len(self._askings)

    def close(self) -> None:
        """Stops all."""
        with self._lock:
            askings = list(self._askings.values())
        for asking in askings:
            asking.stop("the server ends")
        self._pool.shutdown(wait=False, cancel_futures=True)


class Asking(Executor):
    """The questions of one request. As an executor it makes its runs in the desk's pool."""

    def __init__(self, desk: Desk, limits: Limits, pool: ThreadPoolExecutor) -> None:
        self.limits = limits
        self._desk, self._pool = desk, pool
        self._jobs: list[Any] = []
        self._why: Optional[str] = None
        self._lock = threading.Lock()
        self.need = 0
        seconds = limits.seconds
        late = f"it took more than {seconds:g} seconds"
        self._clock = threading.Timer(min(seconds, LONGEST), self.stop, [late])
        self._clock.daemon = True
        self._clock.start()

    def submit(
        self, function: Callable[..., Result], /, *arguments: Any, **named: Any
    ) -> Future[Result]:
        """Makes a run when a processor is free for it."""
        with self._lock:
            if self._why:
                raise Stopped(self._why)
            self._jobs.extend(arguments)
        return self._pool.submit(function, *arguments, **named)

    def shutdown(self, wait: bool = True, *, cancel_futures: bool = False) -> None:
        """Nothing: the pool is the desk's."""

    def stop(self, why: str) -> None:
        """Ends the runs, and lets no other begin."""
        with self._lock:
            self._why = self._why or why
            jobs, self._jobs = self._jobs, []
        for job in jobs:
            job.runs.stop()

    def close(self) -> None:
        """Forgets the runs, which have ended."""
        self._clock.cancel()
        self.stop("the request has ended")

    def session(self, share: int) -> Session:
        """A session whose runs are this request's."""
        return Session(
            share=share,
            positions=self.limits.positions,
            processes=self._desk.processors,
            program=self._desk.program,
            timeout=self.limits.seconds,
            memory=self.limits.memory,
            executor=self,
        )

    def ask(self, lines: Iterable[str], first: Sequence[int] = VALUE_SHARES) -> list[Reply]:
        """The replies to questions without names, each asked once, at the least share that does.

        `first` are the shares that are tried before the one that a question may have. `need` is the
        greatest that one of these replies took.
        """
        asked, most = questions_in(lines), self.limits.share
        found = {line: self._desk.kept.get(line, self.limits) for line in asked}
        for share in (*sorted({share for share in first if 0 < share < most}), most):
            wanting = [line for line, answer in found.items() if answer is None]
            found.update(self._kept(wanting, share))
        answers = [answer for answer in (found[line] for line in asked) if answer is not None]
        self.need = max((answer.share for answer in answers), default=0)
        return [answer.reply for answer in answers]

    def ask_alike(self, lines: Sequence[str], most: int) -> list[Reply]:
        """The replies to questions that need much the same share, probably at most a known one.

        Where a table for all of them is large, some are asked first to see what they need.
        """
        small, shares = most // 16, [most // 4, most]
        fresh = [line for line in lines if self._desk.kept.get(line, self.limits) is None]
        if small and len(fresh) * shares[0] > CELLS_AT_ONCE:
            some = fresh[:: max(len(fresh) // TRIED_FIRST, 1)][:TRIED_FIRST]
            answered = self._kept(some, small)
            if 2 * len(answered) >= len(some):
                shares = [small, *shares]
        return self.ask(lines, shares)

    def _kept(self, lines: Sequence[str], share: int) -> dict[str, Answer]:
        """The answers to lines with a share, which are kept, but for those that need more cells."""
        found = {}
        for line, reply in zip(lines, self._replies(lines, share)):
            if share == self.limits.share or not _is_full(reply):
                found[line] = Answer(reply, share, None)
                self._desk.kept.put(line, reply, share, self.limits)
        return found

    def _replies(self, lines: Sequence[str], share: int) -> list[Reply]:
        """The replies to lines with a share, or Stopped where they were stopped in the middle."""
        if not lines:
            return []
        runs = min(self._desk.processors, len(lines), -(-len(lines) * share // CELLS_A_RUN))
        limits = OneShare(
            share,
            self.limits.positions,
            CELLS,
            runs,
            self._desk.program,
            None,  # the request's clock ends its runs
            self.limits.memory,
            self,
        )
        try:
            with Replies(lines, Batch(lines, lambda _: [], limits)) as replies:
                found = list(replies)
        except CgError:
            self.check()
            raise
        self.check()
        return found

    def check(self) -> None:
        """Raises Stopped where the request was stopped."""
        if self._why:
            raise Stopped(self._why)


def _is_full(reply: Reply) -> bool:
    return isinstance(reply, Refusal) and reply.kind == "full"
