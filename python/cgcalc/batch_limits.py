"""What the lines of a batch may take, and how that cuts them into runs."""
from __future__ import annotations

from concurrent.futures import Executor
from dataclasses import dataclass
from typing import Optional

from cgcalc.limits import MOST_WORKERS

SMALL_SHARES = {1_024: 3, 8_192: 1, 65_536: 1, 262_144: 1, 1_048_576: 1, 4_194_304: 1}
"""The shares that are tried first, with the quarters of the lines that make each worth its time."""
SMALL_TABLE = 8_192
"""Lines that have room in a table of so many cells are asked with their whole share at once."""
FEWEST_LINES = 16
"""A run isn't cut to fewer lines than these only to keep all processors busy."""
MOST_RUNS = 8
"""About as many runs are made at once at most; with more processors each has several workers."""
START_BYTES = 32
"""What a cell takes for a moment at the start, half of it for good."""


@dataclass(frozen=True)
class Limits:
    """What the lines of a batch may take, and what runs them."""

    share: int
    positions: int
    cells: int
    processes: int
    program: Optional[str]
    timeout: Optional[float]
    memory: Optional[int]
    executor: Optional[Executor]

    def shares(self, lines: int) -> list[int]:
        """The shares that so many lines, with those before them, are asked with in turn."""
        if lines * self.share <= SMALL_TABLE:
            return [self.share]
        return [share for share in SMALL_SHARES if 2 * share <= self.share] + [self.share]

    @property
    def table(self) -> int:
        """The most cells of a run that has several lines."""
        if self.memory is None:
            return self.cells
        return min(self.cells, self.memory // 2 // START_BYTES)

    @property
    def workers(self) -> int:
        """The fewest workers of a run; on several machines each has one.

        One thread lays out a table, so several runs side by side are quicker than one with several
        workers.
        """
        fewest = min(-(-self.processes // MOST_RUNS), MOST_WORKERS)
        return fewest if self.executor is None else 1

    @property
    def at_once(self) -> int:
        """How many runs there are at once."""
        return -(-self.processes // self.workers)

    @property
    def most_busy(self) -> int:
        """With how many workers under way one more run is sent; to other machines twice as many.

        The last lines of a run with several workers leave some idle, so there may be one run more.
        """
        if self.executor is not None:
            return 2 * self.processes - 1
        return self.processes if self.workers > 1 else self.processes - 1

    @property
    def fewest(self) -> int:
        """The fewest lines that are worth a run: on several machines each has one worker."""
        return FEWEST_LINES if self.executor is None else 1
