"""The forms of a table: which are written line by line, and what a line is in each."""
from __future__ import annotations

import io
from fractions import Fraction
from typing import Any, Callable, Iterable, Optional, Sequence

from cgcalc.latex import latex_of, plain_latex
from cgcalc.refusals import Refusal
from cgcalc.replies import (
    Check,
    Failed,
    Mean,
    Order,
    Outcome,
    Proof,
    Reply,
    Stops,
    Temperature,
)
from cgcalc.svg import escape
from cgcalc.thermographs import Corner, Thermograph
from cgcalc.values import Value

Cells = Sequence[str]
Record = dict[str, Any]


def separated(cells: Cells) -> str:
    """The cells of a line with tabs between them."""
    return "\t".join(cell.replace("\t", " ") for cell in cells) + "\n"


def csv_line(cells: Cells) -> str:
    """The cells of a line with commas between them, quoted where that is needed.

    >>> csv_line(["a", "{1,2|0}"])
    'a,"{1,2|0}"\\n'
    """
    import csv  # here, as few need it and loading it takes time

    text = io.StringIO()
    csv.writer(text, lineterminator="\n").writerow(cells)
    return text.getvalue()


def markdown_line(cells: Cells) -> str:
    """The cells of a line of a table in Markdown.

    >>> markdown_line(["2", "{2|0}"])
    '| 2 | {2\\\\|0} |\\n'
    """
    return "| " + " | ".join(markdown_cell(cell) for cell in cells) + " |\n"


def markdown_cell(cell: str) -> str:
    """A cell in which no letter means something to Markdown."""
    for letter in "\\|*_<`":
        cell = cell.replace(letter, "\\" + letter)
    return cell


def markdown_head(cells: Cells) -> str:
    """The headings in Markdown, and the line below them."""
    return markdown_line(cells) + "|" + "---|" * len(cells) + "\n"


LINES: dict[str, tuple[Callable[[Cells], str], Callable[[Cells], str]]] = {
    "tsv": (separated, separated),
    "csv": (csv_line, csv_line),
    "markdown": (markdown_head, markdown_line),
}
"""The forms of which each line is written by itself: how the headings, and how the cells."""
JSON_LINES = "jsonl"
FORMS = [*LINES, JSON_LINES, "aligned", "grid", "html", "latex"]
FIRST_SHOWN, LAST_SHOWN = 50, 10
"""How many rows a notebook shows of a long table, at its beginning and at its end."""


def html_table(head: Cells, rows: Iterable[Cells]) -> str:
    """A table in HTML."""
    cells = "".join(f"<th>{escape(cell)}</th>" for cell in head)
    lines = [f"<table><thead><tr>{cells}</tr></thead>"]
    for row in rows:
        lines.append("<tr>" + "".join(f"<td>{escape(cell)}</td>" for cell in row) + "</tr>")
    return "".join([*lines, "</table>"])


def latex_table(head: Cells, rows: Iterable[Cells]) -> str:
    r"""A table in LaTeX, for the package amsmath; what stands in a cell is set as in papers.

    >>> print(latex_table(["board", "value"], [["T.F", "^*"]]), end="")
    \begin{tabular}{ll}
    board & value \\ \hline
    \texttt{T.F} & ${\uparrow}{\ast}$ \\
    \end{tabular}
    """
    lines = [rf"\begin{{tabular}}{{{'l' * len(head)}}}"]
    lines.append(" & ".join(map(plain_latex, head)) + r" \\ \hline")
    for row in rows:
        lines.append(" & ".join(map(latex_cell, head, row)) + r" \\")
    return "\n".join([*lines, r"\end{tabular}", ""])


def latex_cell(heading: str, cell: str) -> str:
    """A cell in LaTeX: a board and a refusal in type of one width, anything else as papers do."""
    if heading == "board" or cell.startswith("!"):
        return rf"\texttt{{{plain_latex(cell)}}}" if cell else ""
    return f"${latex_of(cell)}$" if cell else ""


def fields_of(reply: Reply, question: Optional[str] = None) -> Record:
    """The kind of a reply, and its fields, as a record has them; a refusal also in a sentence.

    >>> fields_of(Stops(Fraction(1), Fraction(0)))
    {'kind': 'stops', 'left': Fraction(1, 1), 'right': Fraction(0, 1)}
    """
    kind = type(reply).__name__.lower()
    if isinstance(reply, Value):
        return {"kind": kind, "value": str(reply), "number": reply.number}
    if isinstance(reply, Thermograph):
        walls = {"left": _corners(reply.left), "right": _corners(reply.right)}
        return {"kind": kind, "mean": reply.mean, "temperature": reply.temperature, **walls}
    if isinstance(reply, Stops):
        return {"kind": kind, "left": reply.left, "right": reply.right}
    if isinstance(reply, Proof):
        return {"kind": kind, "holds": reply.holds, "proof": reply.text}
    if isinstance(reply, (Refusal, Failed)):
        return {"kind": kind, "refusal": str(reply), "sentence": reply.explain(question)}
    return {"kind": kind, **_field_of(reply)}


def _field_of(reply: Reply) -> Record:
    if isinstance(reply, Mean):
        return {"mean": reply.mean}
    if isinstance(reply, Temperature):
        return {"temperature": reply.temperature}
    if isinstance(reply, Order):
        return {"sign": reply.sign}
    if isinstance(reply, Outcome):
        return {"winner": reply.winner}
    if isinstance(reply, Check):
        return {"accepted": reply.accepted}
    return {}


def _corners(wall: Sequence[Corner]) -> list[tuple[Fraction, Fraction]]:
    return [(corner.value, corner.temperature) for corner in wall]


def json_line(record: Record) -> str:
    """A record as a line of JSON, in which fractions are texts.

    >>> json_line({"kind": "mean", "mean": Fraction(1, 2)})
    '{"kind": "mean", "mean": "1/2"}\\n'
    """
    import json  # here, as few need it and loading it takes time

    return json.dumps(record, default=str, ensure_ascii=False) + "\n"
