"""What a question may take, and the replies that are kept so that going back asks nothing."""
from __future__ import annotations

import threading
from collections import OrderedDict
from dataclasses import dataclass
from typing import Optional

from cgcalc.limits import MOST_CELLS, MOST_POSITIONS, POSITIONS, SHARE
from cgcalc.refusals import Refusal
from cgcalc.replies import Failed, Reply

KEPT_BYTES = 8 << 20
GIB = 1 << 30


@dataclass(frozen=True)
class Limits:
    """What a question may take: cells, items of a list, seconds, and bytes of memory of its run."""

    share: int = SHARE
    positions: int = POSITIONS
    seconds: float = 20.0
    memory: int = GIB

    def raised(self, effort: int) -> Limits:
        """The limits with each step of effort four times as high, as far as the program goes."""
        times = 4**effort
        share = min(self.share * times, MOST_CELLS // 4, self.memory * times // 64)
        return Limits(
            max(share, self.share),
            min(self.positions * times, MOST_POSITIONS),
            self.seconds * times,
            self.memory * times,
        )


@dataclass(frozen=True)
class Answer:
    """A reply, the share that it took, and the limits that it depends on if it is a refusal."""

    reply: Reply
    share: int
    limits: Optional[Limits]


class Kept:
    """The replies that were given last, up to a number of bytes."""

    def __init__(self, most: int = KEPT_BYTES) -> None:
        self._most, self._bytes = most, 0
        self._answers: OrderedDict[str, Answer] = OrderedDict()
        self._lock = threading.Lock()

    def get(self, line: str, limits: Limits) -> Optional[Answer]:
        """The answer to a line within limits, if it is kept."""
        with self._lock:
            found = self._answers.get(line)
            if found is None or found.limits not in (None, limits):
                return None
            self._answers.move_to_end(line)
            return found

    def put(self, line: str, reply: Reply, share: int, limits: Limits) -> None:
        """Keeps a reply, but for a failure, which may be by chance."""
        if isinstance(reply, Failed):
            return
        within = limits if isinstance(reply, Refusal) else None
        with self._lock:
            if line in self._answers:
                self._bytes -= _size(line, self._answers.pop(line).reply)
            self._answers[line] = Answer(reply, share, within)
            self._bytes += _size(line, reply)
            while self._bytes > self._most:
                oldest, old = self._answers.popitem(last=False)
                self._bytes -= _size(oldest, old.reply)


def _size(line: str, reply: Reply) -> int:
    return 400 + len(line) + 4 * len(str(reply))
