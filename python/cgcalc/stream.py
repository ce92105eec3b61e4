"""Replies one by one, and the progress that they make."""
from __future__ import annotations

from functools import partial
from types import TracebackType
from typing import Callable, Generator, Iterator, Optional, Protocol, Sequence, Union

from cgcalc.batch import Batch
from cgcalc.program import CgError
from cgcalc.replies import Failed, Reply, read_reply


class ProgressBar(Protocol):
    """A bar, as tqdm makes them."""

    def update(self, n: int) -> object:
        """Moves the bar by so many."""

    def close(self) -> object:
        """Ends the bar."""


ProgressListener = Union[Callable[[int, int], object], Callable[..., ProgressBar]]
"""A function that is told how many replies there are and are to be, or a class such as tqdm, of
which a bar is made with `total`, and then told by `update` and `close`."""


class Replies(Iterator[Reply]):
    """The replies to `total` questions, in their order, of which `done` were given so far.

    It stops the runs that are under way when it is closed, left as a context or dropped.

    >>> from cgcalc import Session
    >>> with Session().replies(f"value {n}.^" for n in range(1_000)) as replies:
    ...     print(next(replies), next(replies), replies.done, replies.total)
    0 ^ 2 1000
    """

    def __init__(
        self, questions: Sequence[str], batch: Batch, progress: Optional[ProgressListener] = None
    ) -> None:
        self.total = len(questions)
        self.done = 0
        self._replies = _read_all(questions, batch)
        self._told = ProgressTeller(progress, self.total) if progress else None

    def __next__(self) -> Reply:
        try:
            reply = next(self._replies)
        except BaseException:
            self.close()
            raise
        self.done += 1
        if self._told:
            self._told.tell(self.done)
        return reply

    def __length_hint__(self) -> int:
        return self.total - self.done

    def close(self) -> None:
        """Stops what runs; no further reply comes."""
        self._replies.close()
        if self._told:
            self._told.close()

    def __enter__(self) -> Replies:
        return self

    def __exit__(
        self,
        kind: Optional[type[BaseException]],
        error: Optional[BaseException],
        trace: Optional[TracebackType],
    ) -> None:
        self.close()


class ProgressTeller:
    """Tells of the progress: a function, or a bar that is made for it."""

    def __init__(self, listener: ProgressListener, total: int) -> None:
        self._total = total
        self._tell: Optional[Callable[[int, int], object]] = None
        self._bar: Optional[ProgressBar] = None
        if _makes_bars(listener):
            self._bar = listener(total=total)  # type: ignore[call-arg, assignment]
        else:
            self._tell = listener

    def tell(self, done: int) -> None:
        """Tells that one more is done."""
        if self._bar is not None:
            self._bar.update(1)
        elif self._tell is not None:
            self._tell(done, self._total)

    def close(self) -> None:
        """Tells that no more will be done."""
        bar, self._bar, self._tell = self._bar, None, None
        if bar is not None:
            bar.close()


def _makes_bars(listener: object) -> bool:
    """Whether it is a class of bars, also with some words given already, as partial(tqdm, ..)."""
    while isinstance(listener, partial):
        listener = listener.func
    return isinstance(listener, type)


def _read_all(questions: Sequence[str], batch: Batch) -> Generator[Reply, None, None]:
    """The replies, of what the batch gives."""
    texts = batch.texts()
    try:
        for question, text in zip(questions, texts):
            yield text if isinstance(text, Failed) else read_text(question, text)
    finally:
        texts.close()


def read_text(question: str, text: str) -> Reply:
    """The reply that the program wrote; CgError where it wrote none."""
    try:
        return read_reply(question, text)
    except ValueError as error:
        raise CgError(f"the program wrote what is no reply: {text!r}") from error
