"""The questions of a table: templates, and the boards or sizes that they are filled with."""
from __future__ import annotations

import re
import sys
from dataclasses import dataclass
from pathlib import Path
from typing import Iterable, Optional, Sequence, Union

from cgcalc.errors import WrongCall
from cgcalc.exact import exact_number, whole_number
from cgcalc.operands import Operand, text_of

PLACES = ("board", "rows", "columns")
RANGE = re.compile(r"([0-9]{1,6})(?:-([0-9]{1,6}))?")
Sizes = Union[int, str, Iterable[int]]


@dataclass(frozen=True)
class Entry:
    """A question of a table, with the cells that stand before its answer."""

    labels: list[str]
    question: str


@dataclass(frozen=True)
class Questions:
    """The questions of a table, with the headings of what they are asked of.

    Each of the templates is asked of the first board or size, then of the next.
    """

    templates: list[str]
    headings: list[str]
    entries: list[Entry]


def questions_of(
    templates: Union[str, Iterable[str]],
    boards: Optional[Iterable[object]] = None,
    rows: Optional[Sizes] = None,
    columns: Optional[Sizes] = None,
    fill: Optional[str] = None,
) -> Questions:
    """The templates filled with each of the boards or sizes."""
    asked = [templates] if isinstance(templates, str) else list(templates)
    if not asked or not all(isinstance(template, str) for template in asked):
        raise WrongCall("give a question, or several, as texts with {board} in them")
    if fill is not None and not isinstance(fill, str):
        raise WrongCall(f"fill is a text, such as '.' or 'xo', not {fill!r}")
    by_size = rows is not None or columns is not None
    if by_size == (boards is not None):
        raise WrongCall("give either rows and columns, or boards")
    if boards is None:
        return questions_of_sizes(asked, rows, columns, fill)
    if isinstance(boards, str):
        raise WrongCall("boards are a list of texts, not one text: put it in brackets")
    return questions_of_boards(asked, texts_of_boards(boards))


def texts_of_boards(boards: Iterable[object]) -> list[str]:
    """The boards as texts: each is one, or a game, a value, a board or a number.

    >>> texts_of_boards(["T.F", 3])
    ['T.F', '3']
    """
    texts = []
    for at, board in enumerate(boards):
        if isinstance(board, str):
            texts.append(board)
        elif isinstance(board, Operand) or exact_number(board) is not None:
            texts.append(text_of(board))  # type: ignore[arg-type]
        else:
            raise WrongCall(f"boards[{at}] is no board, which is a text or a game: {board!r}")
    return texts


def questions_of_boards(templates: Sequence[str], boards: list[str]) -> Questions:
    """The templates filled with each of the boards.

    >>> questions_of_boards(['value Toads("{board}")'], ["T.F"]).entries
    [Entry(labels=['T.F'], question='value Toads("T.F")')]
    """
    for template in templates:
        if "{board}" not in template:
            raise WrongCall(f"the question {template!r} has no {{board}}")
    entries = []
    for board in boards:
        entries += [Entry([board], filled(template, board=board)) for template in templates]
    return Questions(list(templates), ["board"], entries)


def questions_of_sizes(
    templates: Sequence[str],
    rows: Optional[Sizes],
    columns: Optional[Sizes],
    fill: Optional[str],
) -> Questions:
    """The templates filled with each of the sizes, and with a board of that size.

    >>> questions_of_sizes(['value Octal("0.77",{columns})'], None, "8-9", None).entries[0]
    Entry(labels=['8'], question='value Octal("0.77",8)')
    """
    for template in templates:
        if not any("{" + place + "}" in template for place in PLACES):
            raise WrongCall(f"the question {template!r} has no {{board}}, {{rows}} or {{columns}}")
        if "{board}" in template and not fill:
            raise WrongCall("fill has to say what the {board} is filled with")
    headings = [name for name, text in (("rows", rows), ("columns", columns)) if text is not None]
    entries = []
    for height in sizes_of("rows", 1 if rows is None else rows):
        for width in sizes_of("columns", 1 if columns is None else columns):
            texts = {"rows": str(height), "columns": str(width)}
            labels = [texts[heading] for heading in headings]
            if fill:
                texts["board"] = board_of(height, width, fill)
            entries += [Entry(labels, filled(template, **texts)) for template in templates]
    return Questions(list(templates), headings, entries)


def filled(template: str, **texts: str) -> str:
    """The template with each `{place}` replaced by its text; other braces are the notation's.

    >>> filled("value {{board}|0}", board='Toads("T.F")')
    'value {Toads("T.F")|0}'
    """
    for place, text in texts.items():
        template = template.replace("{" + place + "}", text)
    return template


def board_of(rows: int, columns: int, fill: str) -> str:
    """A board of so many rows and columns. Several symbols stand in turn, along and down.

    >>> board_of(2, 3, "."), board_of(2, 3, "xo")
    ('...|...', 'xox|oxo')
    """
    lines = []
    for row in range(rows):
        lines.append("".join(fill[(row + column) % len(fill)] for column in range(columns)))
    return "|".join(lines)


def sizes_of(what: str, given: Sizes) -> list[int]:
    """The sizes that a number, a text or a list of numbers gives.

    >>> sizes_of("rows", "0,2-4"), sizes_of("rows", 3), sizes_of("rows", range(2))
    ([0, 2, 3, 4], [3], [0, 1])
    """
    if isinstance(given, str):
        sizes = [size for part in given.split(",") for size in _range(part)]
    else:
        sizes = _whole_numbers(given)
    if not sizes or min(sizes) < 0:
        shapes = "a number, a range such as 1-4, or a list such as 1,3,5"
        raise WrongCall(f"{what} is {shapes}, not {given!r}")
    return sizes


def _whole_numbers(given: Union[int, Iterable[int]]) -> list[int]:
    """The numbers of a list, or a number alone; -1 in place of what is none."""
    listed = list(given) if isinstance(given, Iterable) else [given]
    numbers = [whole_number(size) for size in listed]
    return [-1 if number is None else number for number in numbers]


def _range(text: str) -> list[int]:
    """The numbers of a range; -1 where it is none."""
    found = RANGE.fullmatch(text)
    numbers = range(int(found[1]), int(found[2] or found[1]) + 1) if found else range(0)
    return list(numbers) or [-1]


def read_boards(path: str) -> list[str]:
    """The boards of a file, one a line; blank lines are left out."""
    try:
        read = sys.stdin.buffer.read() if path == "-" else Path(path).read_bytes()
    except OSError as error:
        why = error.strerror or error
        raise WrongCall(f"the boards can't be read from {path}: {why}") from error
    lines = (line.strip(" \t\r") for line in read.decode(errors="surrogateescape").split("\n"))
    boards = [line for line in lines if line]
    if not boards:
        raise WrongCall(f"there are no boards in {path}")
    return boards
