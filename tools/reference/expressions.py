"""Expressions, the trees that lines are read as, and what the names in them stand for."""
from typing import NamedTuple


class Number(NamedTuple):
    """A literal, with its sign."""

    negative: bool
    above: int
    below: int


class Ups(NamedTuple):
    """So many ups, or downs."""

    down: bool
    times: int


class Nimber(NamedTuple):
    """A star with its count."""

    times: int


class Switch(NamedTuple):
    """`+-` and a literal."""

    above: int
    below: int


class Tiny(NamedTuple):
    """Tiny or miny of a literal."""

    miny: bool
    above: int
    below: int


class Braces(NamedTuple):
    """The Left and the Right options."""

    lefts: tuple
    rights: tuple


class Negative(NamedTuple):
    """The negative of an expression."""

    inner: tuple


class Multiple(NamedTuple):
    """So many copies of an expression."""

    times: int
    inner: tuple


class Sum(NamedTuple):
    """Terms, each with whether it is subtracted."""

    terms: tuple


class Board(NamedTuple):
    """A position of a game, by the text of its rules or edges, and that of its cells or vertices."""

    game: str
    rules: str
    cells: str


class Octal(NamedTuple):
    """A heap of an octal game."""

    code: str
    heap: int


class Name(NamedTuple):
    """A use of a name, and the column at which it stands."""

    text: str
    column: int


def inside(expression):
    """The expressions right below the top of an expression, in the order of the text."""
    if isinstance(expression, Braces):
        return expression.lefts + expression.rights
    if isinstance(expression, (Negative, Multiple)):
        return (expression.inner,)
    if isinstance(expression, Sum):
        return tuple(term for _, term in expression.terms)
    return ()


def expanded(expression, bound):
    """The expression with what the names are bound to in place of their uses."""
    if isinstance(expression, Name):
        return bound[expression.text]
    if isinstance(expression, Braces):
        return Braces(*(tuple(expanded(one, bound) for one in side) for side in expression))
    if isinstance(expression, Negative):
        return Negative(expanded(expression.inner, bound))
    if isinstance(expression, Multiple):
        return Multiple(expression.times, expanded(expression.inner, bound))
    if isinstance(expression, Sum):
        return Sum(tuple((minus, expanded(term, bound)) for minus, term in expression.terms))
    return expression


def leaves(expression, kinds, met=None):
    """The parts of these kinds, from the left; what several uses of a name share is gone through once."""
    met = {} if met is None else met
    if id(expression) in met:
        return
    met[id(expression)] = expression
    if isinstance(expression, kinds):
        yield expression
    for one in inside(expression):
        yield from leaves(one, kinds, met)


def size(expression, known):
    """The parts of an expression, which are the nodes of its tree and the bytes of its boards' texts, and its levels, which
    are the nodes on its longest path."""
    if id(expression) not in known:
        sizes = [size(one, known) for one in inside(expression)]
        texts = len(expression.rules) + len(expression.cells) if isinstance(expression, Board) else 0
        parts = 1 + texts + sum(parts for parts, _ in sizes)
        known[id(expression)] = parts, 1 + max((levels for _, levels in sizes), default=0), expression
    return known[id(expression)][:2]
