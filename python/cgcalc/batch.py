"""Batches: many lines, cut into runs of the program, answered side by side and put in order.

What a line is answered depends on its share by `! full` alone, and a share costs time even where a
line doesn't need it: its cells have to be laid out. So lines are asked with a small share first,
and what is full with more, up to the share that each of them has.
"""
from __future__ import annotations

import sys
from collections import Counter
from concurrent.futures import FIRST_COMPLETED, Executor, Future, wait
from dataclasses import dataclass, replace
from typing import Callable, Generator, Optional, Sequence, Union

from cgcalc.batch_limits import SMALL_SHARES, Limits
from cgcalc.cache import Cache, Keys
from cgcalc.limits import MOST_BYTES, MOST_LINES, MOST_WORKERS
from cgcalc.lines import cut_output, encoded, session_bytes, table_of
from cgcalc.program import CgError
from cgcalc.replies import Failed
from cgcalc.runs import RunEnd, Job, Runs, Threads, run

FULL = "! full"
FIRST_LINES = 1_024
"""A run has no more lines than these, so that replies come soon, until a few runs were made."""
FEWEST_SEEN = 64
"""How many lines are asked with a share before it is judged whether it is worth its time."""
MOST_TRIES = 3
"""How often a run is sent that an executor loses."""

Text = Union[str, Failed]


@dataclass(frozen=True)
class Piece:
    """Lines that one run answers, by their numbers, and the step whose share they have."""

    step: int
    lines: list[int]
    job: Job
    before: int
    tries: int = 1


class Batch:
    """Lines on their way to the program and back.

    `prefix` gives the lines that have to stand before some lines, and get an answer too: the
    definitions that they need. What the `cache` has isn't asked, and what is asked it keeps.
    """

    def __init__(
        self,
        lines: Sequence[str],
        prefix: Callable[[Sequence[str]], list[str]],
        limits: Limits,
        cache: Optional[Cache] = None,
    ) -> None:
        places: dict[str, int] = {}
        self._places = [places.setdefault(line, len(places)) for line in lines]
        self._uses = Counter(self._places) if len(places) < len(lines) else None
        self._lines = list(places)
        self._prefix = prefix
        self._limits = limits
        before = prefix(self._lines)
        self._longest_prefix = len(before)
        self._space = MOST_BYTES - len(session_bytes(before))
        self._shares = limits.shares(len(self._lines) + len(before))
        self._waiting: list[dict[int, None]] = [{} for _ in self._shares]
        self._alone: list[tuple[int, int]] = []
        self._seen = [0] * len(self._shares)
        self._full = [0] * len(self._shares)
        self._cache = cache
        self._keys: list[bytes] = []
        self._order: Sequence[int] = range(len(self._lines))
        self._fresh = 0
        self._next = 0
        self._texts: dict[int, Text] = {}
        self._flying: dict[Future[RunEnd], Piece] = {}
        self._runs = Runs()

    def texts(self) -> Generator[Text, None, None]:
        """What the program writes to each line, in their order, or how a line's run failed."""
        if not self._places:
            return
        self._look_up()
        self._runs = Runs(self._limits.executor is not None)
        executor = self._limits.executor or Threads(self._limits.processes + 1)
        try:
            for self._next in self._places:
                while self._next not in self._texts:
                    self._send(executor)
                    self._take(executor)
                yield self._given(self._next)
        finally:
            if not sys.is_finalizing():  # else all runs are stopped, and no thread goes on
                self._leave(executor)

    def _look_up(self) -> None:
        """Takes what the cache has, and leaves the rest to be asked."""
        limits = self._limits
        if self._cache is None or limits.program is None:
            return
        keys = Keys(limits.program, limits.share, limits.positions)
        self._keys = [keys.of(session_bytes([*self._prefix([line]), line])) for line in self._lines]
        found = self._cache.find(self._keys)
        self._order = [at for at, key in enumerate(self._keys) if key not in found]
        self._texts = {at: found[key] for at, key in enumerate(self._keys) if key in found}

    def _given(self, number: int) -> Text:
        """The text of a line, which is kept only as long as an equal line comes."""
        if self._uses is not None:
            self._uses[number] -= 1
            if self._uses[number]:
                return self._texts[number]
        return self._texts.pop(number)

    def _leave(self, executor: Executor) -> None:
        """Stops what runs; in a process that was forked meanwhile nothing does."""
        if not self._runs.is_own:
            return
        for future in self._flying:
            future.cancel()
        self._runs.stop()
        if self._limits.executor is None:
            executor.shutdown()

    def _send(self, executor: Executor) -> None:
        """Sends runs until as many are there as may be, or no line is left to send."""
        if not self._runs.is_own:
            raise CgError("the process that asked for these replies gets them: ask anew in a fork")
        while self._busy <= self._limits.most_busy:
            piece = self._piece()
            if piece is None:
                return
            self._submit(executor, piece)

    @property
    def _busy(self) -> int:
        """How many workers the runs have that are under way."""
        return sum(piece.job.workers for piece in self._flying.values())

    def _submit(self, executor: Executor, piece: Piece) -> None:
        try:
            self._flying[executor.submit(run, piece.job)] = piece
        except RuntimeError as error:
            raise CgError(f"the executor takes no run: {error}") from error

    def _take(self, executor: Executor) -> None:
        """Waits for a run, and takes its answers. A run that an executor lost is sent again."""
        ended, _ = wait(self._flying, return_when=FIRST_COMPLETED)
        for future in ended:
            piece = self._flying.pop(future)
            try:
                answered = future.result()
            except CgError:
                raise
            except Exception as error:
                if piece.tries == MOST_TRIES:
                    lost = f"the executor lost a run {MOST_TRIES} times: {error!r}"
                    raise CgError(lost) from error
                self._submit(executor, replace(piece, tries=piece.tries + 1))
            else:
                self._read(piece, answered)

    def _read(self, piece: Piece, ended: RunEnd) -> None:
        """Takes the answers of a run. Where it failed its lines are asked again one by one."""
        if ended.status not in (0, 1):
            if len(piece.lines) == 1:
                self._texts[piece.lines[0]] = Failed(ended.status, ended.told)
            self._alone += [(piece.step, line) for line in piece.lines if len(piece.lines) > 1]
            return
        count = piece.before + len(piece.lines)
        texts = cut_output(ended.written, count, ended.told)[piece.before :]
        last = len(self._shares) - 1
        self._seen[piece.step] += len(texts)
        answered = {}
        for line, text in zip(piece.lines, texts):
            if text == FULL and piece.step < last:
                self._full[piece.step] += 1
                self._waiting[self._from(piece.step + 1)][line] = None
            else:
                answered[line] = text
        self._texts.update(answered)
        if self._keys and self._cache is not None:
            self._cache.keep((self._keys[line], text) for line, text in answered.items())

    def _from(self, step: int) -> int:
        """The step, or the next one whose share isn't too small for most lines."""
        while step < len(self._shares) - 1 and self._seen[step] >= FEWEST_SEEN:
            answered = self._seen[step] - self._full[step]
            if 4 * answered >= SMALL_SHARES[self._shares[step]] * self._seen[step]:
                break
            step += 1
        return step

    def _piece(self) -> Optional[Piece]:
        """The lines that are to be sent next, or None where it is better to wait."""
        if self._alone:
            step, line = self._alone.pop(0)
            return self._made(step, [line], 1)
        for step, waiting in enumerate(self._waiting):
            if self._next in waiting:
                return self._drawn(step)
        for step in reversed(range(len(self._shares))):
            if len(self._waiting[step]) >= self._room(step):
                return self._drawn(step)
        if self._fresh < len(self._order) and self._is_near():
            if self._is_judged() or not self._flying:
                return self._begun()
            return None
        if self._busy < self._limits.processes:
            for step, waiting in enumerate(self._waiting):
                if waiting:
                    return self._drawn(step)
        return None

    def _is_judged(self) -> bool:
        """Whether it is known what the least share is worth."""
        return len(self._shares) == 1 or self._seen[0] >= FEWEST_SEEN

    def _is_near(self) -> bool:
        """Whether few lines are begun beyond the next one whose answer is wanted."""
        begun = self._order[self._fresh] - self._next
        return begun < 2 * max(self._limits.at_once, 2) * self._room(0)

    def _room(self, step: int) -> int:
        """How many lines a run has at most."""
        lines = min(self._limits.table // self._shares[step], MOST_LINES) - self._longest_prefix
        begun = self._fresh >= 4 * FIRST_LINES * self._limits.at_once
        return max(min(lines, MOST_LINES if begun else FIRST_LINES), 1)

    def _size(self, step: int, left: int) -> int:
        """How many of the lines that are left the next run has."""
        idle = max((self._limits.processes - self._busy) // self._limits.workers, 1)
        return min(self._room(step), max(-(-left // idle), self._limits.fewest))

    def _drawn(self, step: int) -> Piece:
        """A run of lines that wait."""
        waiting = self._waiting[step]
        left = len(waiting)
        lines = self._fitting(sorted(waiting), self._size(step, left))
        for line in lines:
            del waiting[line]
        return self._made(step, lines, left)

    def _begun(self) -> Piece:
        """A run of lines that weren't asked yet."""
        step, left = self._from(0), len(self._order) - self._fresh
        size = self._size(step, left) if self._is_judged() else FEWEST_SEEN
        lines = self._fitting(self._order[self._fresh :], size)
        self._fresh += len(lines)
        return self._made(step, lines, left)

    def _fitting(self, lines: Sequence[int], most: int) -> list[int]:
        """The first of the lines, as many as a session has bytes for, and one at least."""
        space = self._space
        for count, line in enumerate(lines[:most]):
            space -= len(encoded(self._lines[line])) + 1
            if space < 0:
                return list(lines[: max(count, 1)])
        return list(lines[:most])

    def _made(self, step: int, lines: list[int], left: int) -> Piece:
        """The run that answers lines, with as many workers as there are processors for it."""
        limits = self._limits
        texts = [self._lines[line] for line in lines]
        before = self._prefix(texts)
        runs = len(self._flying) + -(-left // len(lines))
        workers = min(max(limits.processes // runs, limits.workers), len(lines), MOST_WORKERS)
        seconds = limits.timeout and limits.timeout * len(lines).bit_length()
        job = Job(
            session_bytes([*before, *texts]),
            table_of(self._shares[step], len(before) + len(lines)),
            limits.positions,
            workers if limits.executor is None else 1,
            limits.program,
            seconds,
            limits.memory,
            self._runs,
        )
        return Piece(step, lines, job, len(before))
