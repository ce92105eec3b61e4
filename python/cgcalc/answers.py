"""What a game was asked so far, and the answers."""
from __future__ import annotations

from typing import Any, Callable, Hashable, Optional, TypeVar

from cgcalc.definitions import Named

Answer = TypeVar("Answer")
OF_THERMOGRAPHS = ("mean", "temperature")
"""What a thermograph tells as well."""


class Answers:
    """The answers to what a game was asked, each by a key: the word, and the other game if any."""

    def __init__(self, known: Optional[dict[Hashable, Any]] = None) -> None:
        self._known = dict(known or {})

    def get(self, key: Hashable, ask: Callable[[], Answer]) -> Answer:
        """An answer, which is asked for the first time only."""
        if key not in self._known:
            self._known[key] = self._told(key) if self.has(key) else ask()
        answer: Answer = self._known[key]
        return answer

    def has(self, key: Hashable) -> bool:
        """Whether an answer is there, so that nothing is asked for it."""
        return key in self._known or key in OF_THERMOGRAPHS and "thermograph" in self._known

    def learn(self, key: Hashable, answer: object) -> None:
        """Takes an answer."""
        self._known[key] = answer

    def without_names(self) -> dict[Hashable, Any]:
        """The answers whose keys have no names, so that they mean the same elsewhere."""
        return {key: answer for key, answer in self._known.items() if isinstance(key, str)}

    def _told(self, name: Hashable) -> Any:
        """What the thermograph tells."""
        return getattr(self._known["thermograph"], str(name))


def about(word: str, other: Named) -> Hashable:
    """The key of the answer to a question about two games, by the other one."""
    text, names = other
    key = f"{word} {text}"
    return (key, frozenset(names.bound.items())) if names.bound else key
