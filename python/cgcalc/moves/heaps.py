"""Moves of octal games: tokens are taken from a heap, and what is left may be cut in two."""
from __future__ import annotations

import re
from typing import Iterator

from cgcalc.moves.move import NoPosition

CODE = re.compile(r"0\.([0-7]{1,16})")
MOST_TOKENS = 1_000

Heaps = tuple[int, ...]


def heap_moves(code: str, tokens: int) -> Iterator[tuple[str, Heaps]]:
    """The moves of a heap, which both players have, each with its name and the heaps it leaves.

    >>> list(heap_moves("0.77", 3))[:2]
    [('take 1, leave 2', (2,)), ('take 1, leave 1+1', (1, 1))]
    """
    found = CODE.fullmatch(code)
    if not found or not 0 <= tokens <= MOST_TOKENS:
        raise NoPosition(f"Octal({code!r}, {tokens}) is no heap: its value tells what is wrong")
    for taken, digit in enumerate(map(int, found[1]), 1):
        for heaps in left_heaps(digit, tokens - taken):
            left = "+".join(map(str, heaps)) or "none"
            yield f"take {taken}, leave {left}", heaps


def left_heaps(digit: int, left: int) -> Iterator[Heaps]:
    """The heaps that a digit lets stand where so many tokens are left.

    >>> list(left_heaps(7, 5)), list(left_heaps(1, 0)), list(left_heaps(7, -1))
    ([(5,), (1, 4), (2, 3)], [()], [])
    """
    if digit & 1 and left == 0:
        yield ()
    if digit & 2 and left > 0:
        yield (left,)
    if digit & 4:
        for smaller in range(1, left // 2 + 1):
            yield smaller, left - smaller
