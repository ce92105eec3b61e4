"""A table: its questions, the replies so far, and its text in each of its forms."""
from __future__ import annotations

from importlib import import_module
from typing import Any, Iterator

from cgcalc.columns import aligned, cells_of, grid, headings_of_all
from cgcalc.errors import WrongCall
from cgcalc.forms import (
    FIRST_SHOWN,
    FORMS,
    JSON_LINES,
    LAST_SHOWN,
    LINES,
    Record,
    fields_of,
    html_table,
    json_line,
    latex_table,
)
from cgcalc.questions import Entry, Questions
from cgcalc.refusals import Refusal
from cgcalc.replies import Failed, Reply

NUMBERS = ("rows", "columns")


class Table:
    """A table: what was asked, and the replies, as far as there are any.

    >>> from cgcalc import Session
    >>> table = Session().table('temp Domineering("{board}")', rows="1,3", columns=3, fill=".")
    >>> print(table)
    rows  columns  temp
       1        3    -1
       3        3     1
    >>> table.records()[1]["temperature"]
    Fraction(1, 1)
    """

    def __init__(self, questions: Questions) -> None:
        self.entries = questions.entries
        self.templates = questions.templates
        self.labels = questions.headings
        self.headings = headings_of_all(questions.templates)
        self.replies: list[Reply] = []

    @property
    def left(self) -> list[Entry]:
        """What is left to ask."""
        return self.entries[len(self.replies) :]

    @property
    def failed(self) -> list[int]:
        """The numbers of the questions whose runs failed."""
        return [at for at, reply in enumerate(self.replies) if isinstance(reply, Failed)]

    @property
    def header(self) -> list[str]:
        """The headings of the columns."""
        return self.labels + [name for names in self.headings for name in names]

    def row(self, number: int) -> list[str]:
        """The cells of a row, with nothing where there is no reply yet."""
        first = number * len(self.headings)
        cells = list(self.entries[first].labels)
        for at, names in enumerate(self.headings, first):
            known = at < len(self.replies)
            cells += cells_of(self.replies[at], len(names)) if known else [""] * len(names)
        return cells

    def rows(self) -> list[list[str]]:
        """The cells of all rows, as far as there are replies."""
        return [self.row(number) for number in range(-(-len(self.replies) // len(self.headings)))]

    def records(self) -> list[Record]:
        """A dictionary for each reply: its board or size, the question, the kind, and its fields.

        `pandas.DataFrame(table.records())` is a frame of them.
        """
        return [self.record(number) for number in range(len(self.replies))]

    def rows_by_board(self) -> list[Record]:
        """A dictionary for each board or size, with the answers under the table's headings.

        >>> from cgcalc import Session
        >>> table = Session().table(["mean {board}", "stops {board}"], boards=["{2|-1}"])
        >>> table.rows_by_board()[0]["stops left"], table.rows_by_board()[0]["mean"]
        (Fraction(2, 1), Fraction(1, 2))
        """
        return [self._row_by_board(row) for row in range(len(self.replies) // len(self.headings))]

    def _row_by_board(self, row: int) -> Record:
        first = row * len(self.headings)
        found = self._labels_of(self.entries[first])
        for at, names in enumerate(self.headings, first):
            fields = list(fields_of(self.replies[at]).values())[1:]
            if self.replies[at].refused or len(names) == 1:
                fields = [str(self.replies[at]) if self.replies[at].refused else fields[0]]
            found.update(zip(names, [*fields, *[None] * len(names)]))
        return found

    def to_pandas(self) -> Any:
        """A frame of pandas with a row for each board or size. Answers are fractions and texts."""
        return import_module("pandas").DataFrame(self.rows_by_board())

    def _labels_of(self, entry: Entry) -> Record:
        """What the question was filled with."""
        return {
            heading: int(label) if heading in NUMBERS else label
            for heading, label in zip(self.labels, entry.labels)
        }

    def record(self, number: int) -> Record:
        """The dictionary of one reply."""
        entry = self.entries[number]
        fields = fields_of(self.replies[number], entry.question)
        return {**self._labels_of(entry), "question": entry.question, **fields}

    def text(self, form: str = "aligned") -> str:
        """The table as far as it came, in one of its forms."""
        if form == "grid":
            labels = [entry.labels for entry in self.entries]
            return grid(labels, [str(reply) for reply in self.replies])
        if form == JSON_LINES:
            return "".join(map(json_line, self.records()))
        if form == "aligned":
            return aligned([self.header, *self.rows()])
        if form == "html":
            return html_table(self.header, self.rows()) + "\n"
        if form == "latex":
            return latex_table(self.header, self.rows())
        if form not in LINES:
            raise WrongCall(f"{form!r} is none of the forms {', '.join(FORMS)}")
        head, line = LINES[form]
        return head(self.header) + "".join(map(line, self.rows()))

    def __str__(self) -> str:
        return self.text().rstrip("\n")

    def _repr_html_(self) -> str:
        """The table for notebooks."""
        count = -(-len(self.replies) // len(self.headings))
        shown = list(range(count))
        if count > FIRST_SHOWN + LAST_SHOWN:
            left_out = [f".. {count - FIRST_SHOWN - LAST_SHOWN} more rows"]
            shown[FIRST_SHOWN : count - LAST_SHOWN] = [-1]
        rows = [left_out if number < 0 else self.row(number) for number in shown]
        return html_table(self.header, rows)

    def progress(self) -> str:
        """How far the table is."""
        return f"{len(self.replies)} of {len(self.entries)}"

    def explanations(self) -> Iterator[str]:
        """What the refusals and failures mean, once for each kind."""
        found: dict[str, list[int]] = {}
        for number, reply in enumerate(self.replies):
            if isinstance(reply, Failed):
                found.setdefault(reply.kind, []).append(number)
            elif isinstance(reply, Refusal):
                found.setdefault(reply.cause or reply.kind, []).append(number)
        for numbers in found.values():
            entry, reply = self.entries[numbers[0]], self.replies[numbers[0]]
            if isinstance(reply, (Failed, Refusal)):
                word = "failed" if isinstance(reply, Failed) else "refused"
                says = reply.explain(entry.question) + ADVICE.get(reply.kind, "")
                count = f"{len(numbers)} of {len(self.entries)} {word}"
                yield f"{count}, as {entry.question} by {reply}: {says}"


ADVICE = {"full": " (--share gives each line more)", "positions": " (--positions sets the limit)"}
