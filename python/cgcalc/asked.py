"""What is asked: lists of questions, and what is none."""
from __future__ import annotations

from typing import Iterable

from cgcalc.definitions import Definition
from cgcalc.errors import WrongCall
from cgcalc.lines import BLANKS


def check_one_line(line: str) -> None:
    """Raises WrongCall for a text of several lines."""
    if "\n" in line:
        raise WrongCall(f"this has several lines: {line!r}")


def questions_in(lines: Iterable[str]) -> list[str]:
    """The questions of a list, or of a file that is open, whose lines end with a line feed."""
    if isinstance(lines, str):
        raise WrongCall("questions are a list of lines, not one text: put it in brackets")
    questions = []
    for number, line in enumerate(lines):
        question = line[:-1] if isinstance(line, str) and line.endswith("\n") else line
        try:
            check_question(question)
        except WrongCall as wrong:
            raise WrongCall(f"questions[{number}]: {wrong}") from None
        questions.append(question)
    return questions


def check_question(line: str) -> None:
    """Raises WrongCall for a text that is no question."""
    if not isinstance(line, str):
        raise WrongCall(f"a question is a line of text, not {line!r}")
    check_one_line(line)
    text = line.strip(BLANKS)
    if not text or text.startswith("#"):
        raise WrongCall(f"this asks nothing: {line!r}")
    if Definition.read(line):
        raise WrongCall(f"this defines a name, which `define` does: {line!r}")
