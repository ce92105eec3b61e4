"""Games from their boards."""
from __future__ import annotations

from typing import Iterable, Optional, Union

from cgcalc.board import Board
from cgcalc.errors import WrongCall
from cgcalc.exact import whole_number
from cgcalc.game import Game
from cgcalc.session import Session

Rows = Union[str, Iterable[str]]


def domineering(rows: Rows, *, session: Optional[Session] = None) -> Game:
    """Domineering: `.` empty, `#` filled. Left fills upright pairs of cells, Right flat ones.

    Rows stand on one line with bars between them, or on a line each, or in a list.

    >>> domineering("...|...").value
    Value(name='{2|-1/2}')
    >>> domineering(["..", ".#"])
    Game('Domineering("..|.#")')
    """
    return _game("Domineering", _joined("|", rows), session=session)


def clobber(rows: Rows, *, session: Optional[Session] = None) -> Game:
    """Clobber: `x` is Left's and takes an adjacent `o`, `o` is Right's and takes an `x`.

    >>> clobber("xxo").value
    Value(name='^')
    """
    return _game("Clobber", _joined("|", rows), session=session)


def amazons(rows: Rows, *, session: Optional[Session] = None) -> Game:
    """Amazons: `x` Left's, `o` Right's, `.` empty, `#` blocked.

    >>> amazons("x..").value
    Value(name='2')
    """
    return _game("Amazons", _joined("|", rows), session=session)


def toads(row: str, *, session: Optional[Session] = None) -> Game:
    """Toads and Frogs: toads `T` go to the right, frogs `F` to the left.

    >>> toads("TT.FF").value
    Value(name='*')
    """
    return _game("Toads", row, session=session)


def strip(rules: Rows, row: str, *, session: Optional[Session] = None) -> Game:
    """A game of one's own on a row. The weights and rules stand in one text, or in a list.

    >>> strip([".=1,0,0", "A=0,0,0", "L:..>AA", "R:...>AAA"], "....").value
    Value(name='{1|0}')
    """
    return _game("Strip", _joined(";", rules), row, session=session)


def hackenbush(edges: Rows, *, session: Optional[Session] = None) -> Game:
    """Hackenbush: an edge is a vertex, a colour and a vertex, and `0` is the ground.

    >>> hackenbush("0b1,1r2,2r3").value
    Value(name='1/4')
    """
    return _game("Hackenbush", _joined(",", edges), session=session)


def col(vertices: str, edges: Rows, *, session: Optional[Session] = None) -> Game:
    """Col on a graph: vertices are `.` free, `x` Left's, `o` Right's; an edge is a pair of letters.

    >>> col("..x", "ab,bc").value
    Value(name='-1/2')
    """
    return _game("Col", vertices, _joined(",", edges), session=session)


def snort(vertices: str, edges: Rows, *, session: Optional[Session] = None) -> Game:
    """Snort on a graph, which is told as for Col.

    >>> snort("..", ["ab"]).value
    Value(name='+-1')
    """
    return _game("Snort", vertices, _joined(",", edges), session=session)


def octal(code: str, tokens: int, *, session: Optional[Session] = None) -> Game:
    """A heap of so many tokens in an octal game.

    >>> octal("0.77", 9).value
    Value(name='*4')
    """
    heap = whole_number(tokens)
    if heap is None or not 0 <= heap < 10**30:
        raise WrongCall(f"the tokens of a heap are a number such as 9, not {tokens!r}")
    return Game(Board("Octal", (code,), heap), session=session)


def _game(name: str, *texts: str, session: Optional[Session]) -> Game:
    return Game(Board(name, texts), session=session)


def _joined(mark: str, parts: Rows) -> str:
    """One text of a list, or of a text on several lines."""
    if isinstance(parts, str):
        parts = [line.strip() for line in parts.strip().split("\n")] if "\n" in parts else [parts]
    try:
        texts = list(parts)
    except TypeError:
        raise WrongCall(f"{parts!r} is neither a text nor a list of texts") from None
    for number, text in enumerate(texts):
        if not isinstance(text, str):
            raise WrongCall(f"[{number}] of a list of texts is none: {text!r}")
    return mark.join(texts)
