"""The columns of a table: their headings, their cells, aligned, or answers by rows and columns."""
from __future__ import annotations

import re
from typing import Iterable, Sequence

from cgcalc.replies import Proof, Reply, Stops, word_of
from cgcalc.thermographs import Thermograph

NUMERIC = re.compile("-?[0-9]*(/[0-9]+)?|!.*")
HEADINGS = {
    "stops": ["left", "right"],
    "thermo": ["mean", "temp", "left", "right"],
    "proof": ["holds", "proof"],
}


def headings_of(template: str) -> list[str]:
    """The headings of the answers to a question.

    >>> headings_of("temp ^"), headings_of("stops ^")
    (['temp'], ['left', 'right'])
    """
    word = word_of(template)
    return HEADINGS.get(word, [word])


def headings_of_all(templates: Sequence[str]) -> list[list[str]]:
    """The headings of the answers to several questions, each with its word where it is needed.

    >>> headings_of_all(["temp ^"]), headings_of_all(["value ^", "stops ^", "value *"])
    ([['temp']], [['value'], ['stops left', 'stops right'], ['value 2']])
    """
    if len(templates) == 1:
        return [headings_of(templates[0])]
    words = [word_of(template) for template in templates]
    headings = []
    for number, (word, template) in enumerate(zip(words, templates)):
        count = words[: number + 1].count(word)
        name = word if count == 1 else f"{word} {count}"
        parts = headings_of(template)
        headings.append([name] if parts == [word] else [f"{name} {part}" for part in parts])
    return headings


def cells_of(reply: Reply, count: int) -> list[str]:
    """A reply in so many cells; a refusal stands in the first."""
    if isinstance(reply, Thermograph):
        walls = (" ".join(str(corner) for corner in wall) for wall in (reply.left, reply.right))
        return [str(reply.mean), str(reply.temperature), *walls]
    if isinstance(reply, Stops):
        return [str(reply.left), str(reply.right)]
    if isinstance(reply, Proof):
        return ["yes" if reply.holds else "no", reply.text]
    return [str(reply)] + [""] * (count - 1)


def aligned(lines: list[list[str]]) -> str:
    """The lines in columns: those of numbers and refusals to the right, others to the left.

    >>> print(aligned([["rows", "value"], ["1", "{2|0}"], ["10", "*"]]), end="")
    rows  value
       1  {2|0}
      10  *
    """
    columns = [list(column) for column in zip(*lines)]
    widths = [max(len(cell) for cell in column) for column in columns]
    numeric = [all(NUMERIC.fullmatch(cell) for cell in column[1:]) for column in columns]
    text = ""
    for line in lines:
        cells = zip(line, widths, numeric)
        placed = (cell.rjust(width) if right else cell.ljust(width) for cell, width, right in cells)
        text += "  ".join(placed).rstrip() + "\n"
    return text


def grid(labels: Iterable[list[str]], answers: list[str]) -> str:
    """The answers by rows and columns, as far as there are any.

    >>> print(grid([["1", "1"], ["1", "2"], ["2", "1"], ["2", "2"]], ["0", "-1", "1"]), end="")
    rows \\ columns  1   2
                 1  0  -1
                 2  1
    """
    found = {(row, column): answer for (row, column), answer in zip(labels, answers)}
    rows = dict.fromkeys(row for row, _ in found)
    columns = dict.fromkeys(column for _, column in found)
    lines = [["rows \\ columns", *columns]]
    lines += [[row, *(found.get((row, column), "") for column in columns)] for row in rows]
    return aligned(lines)
