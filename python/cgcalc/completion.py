"""Words that the tab key completes, by what stands before them."""
from __future__ import annotations

import re
from typing import Any, Callable, Iterable, Optional

from cgcalc.games import FORMS, GAMES
from cgcalc.help import COMMANDS, QUESTIONS, TOPICS

DELIMITERS = " \t\r{}|,;()+-*^/.\""
WITH_ARGUMENT = (":share", ":positions", ":help", ":save", ":load")


def fitting(before: str, begun: str, names: Iterable[str]) -> list[str]:
    """The words that may stand behind a text and begin as the one that is begun.

    >>> fitting("", "te", []), fitting("temp ", "Cl", []), fitting('temp Clobber("', "x", ["xo"])
    (['temp '], ['Clobber("'], [])
    """
    if before.count('"') % 2:
        return []
    words = before.split()
    if not words:
        commands = [f"{word} " if word in WITH_ARGUMENT else word for word in COMMANDS]
        found = [*(f"{word} " for word in QUESTIONS), *commands, "plot "]
        found += [f"{name} := " for name in names]
        found.remove("plot")
    elif words[0] in (":help", "help"):
        found = TOPICS if len(words) == 1 else []
    elif words[0].startswith(":"):
        found = []
    else:
        found = [*(f'{game}("' for game in GAMES), *(f"{form}(" for form in FORMS), *names]
    return sorted(word for word in found if word.startswith(begun))


def completer(
    line: Callable[[], tuple[str, int]], names: Callable[[], Iterable[str]]
) -> Callable[[str, int], Optional[str]]:
    """What readline asks for the words that fit, one after the other.

    `line` gives the line that is typed, and where its last word begins.

    >>> complete = completer(lambda: ("t", 0), list)
    >>> complete("t", 0), complete("t", 1), complete("t", 2)
    ('temp ', 'thermo ', None)
    """

    def complete(begun: str, number: int) -> Optional[str]:
        text, start = line()
        found = fitting(text[:start], begun, names())
        return found[number] if number < len(found) else None

    return complete


def start_completion(readline: Any, names: Callable[[], Iterable[str]]) -> None:
    """Lets the tab key complete words, by GNU readline or by libedit in its place."""

    def line() -> tuple[str, int]:
        return readline.get_line_buffer(), readline.get_begidx()

    readline.set_completer_delims(DELIMITERS)
    readline.set_completer(completer(line, names))
    readline.parse_and_bind("bind ^I rl_complete" if is_libedit(readline) else "tab: complete")


def is_libedit(readline: Any) -> bool:
    """Whether it is libedit that stands behind the module readline."""
    backend = getattr(readline, "backend", None)
    return backend == "editline" or bool(re.search("libedit", readline.__doc__ or ""))
