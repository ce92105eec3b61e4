"""A worksheet: lines of a session with names, answered as `cg` answers them."""
from __future__ import annotations

from typing import Any, Sequence

from cgcalc.completion import fitting
from cgcalc.definitions import Definition
from cgcalc.errors import WrongCall
from cgcalc.explore.asking import Asking
from cgcalc.explore.positions import BadRequest
from cgcalc.explore.told import Told, told
from cgcalc.lines import BLANKS
from cgcalc.program import ProgramFailed
from cgcalc.replies import Failed, Reply
from cgcalc.session import Session

MOST_LINES = 200
MOST_LETTERS = 4_000


def read_lines(data: Any) -> list[str]:
    """The lines of a worksheet that a page sent."""
    if not isinstance(data, list) or len(data) > MOST_LINES:
        raise BadRequest(f"a worksheet has at most {MOST_LINES} lines")
    for line in data:
        if not isinstance(line, str) or len(line) > MOST_LETTERS or "\n" in line:
            raise BadRequest(f"a line of a worksheet is a text of at most {MOST_LETTERS} letters")
    return data


def answered(lines: Sequence[str], asking: Asking) -> list[Told]:
    """The answers to the lines: an empty one to a comment, a blank line and `cg 2` at the start."""
    session = asking.session(asking.limits.share)
    found: list[Told] = []
    for at, line in enumerate(lines):
        text = line.strip(BLANKS)
        if not text or text.startswith("#") or (at == 0 and text == "cg 2"):
            found.append({})
            continue
        try:
            reply = _reply(session, line)
        except WrongCall as error:
            found.append({"refused": "!", "kind": "call", "sentence": str(error)})
            continue
        finally:
            asking.check()
        found.append({"text": str(reply), **told(reply, line, asking.limits)})
    return found


def _reply(session: Session, line: str) -> Reply:
    """The reply to a line, which may define a name."""
    definition = Definition.read(line)
    if definition is None:
        return session.ask([line])[0]
    try:
        return session.bind(definition)
    except ProgramFailed as failed:
        return Failed(failed.status, failed.told)


def completions(data: Any) -> list[str]:
    """The words that may stand at the end of a line, by the names of the worksheet."""
    line, names = data.get("line"), data.get("names")
    if not isinstance(line, str) or not isinstance(names, list):
        raise BadRequest("a line and a list of names are wanted")
    known = [name for name in names if isinstance(name, str)]
    start = len(line)
    while start and line[start - 1] not in ' \t\r{}|,;()+-*^/."':
        start -= 1
    words = fitting(line[:start], line[start:], known)
    return [line[:start] + word for word in words if not word.startswith((":", "plot"))]
