"""From the text of an expression to its tree. The program has accepted the text before."""
from __future__ import annotations

import re
from fractions import Fraction
from typing import Mapping, NoReturn

from cgcalc.certify_expressions import (
    UP,
    Brace,
    Expression,
    Multiple,
    Negative,
    Nimber,
    Number,
    Plus,
    Position,
    miny_of,
    sum_of,
    switch_of,
    tiny_of,
)
from cgcalc.definitions import NAME
from cgcalc.errors import WrongCall
from cgcalc.games import GAMES

BLANKS = re.compile(r"[ \t\r]*")
NUMBER = re.compile(r"([0-9]+)(?:/([0-9]+))?")
COUNT = re.compile(r"([0-9]+)\.")
UPS = re.compile(r"\^+|v+")
DIGITS = re.compile(r"[0-9]*")
BARS = re.compile(r"\|+")
STRING = re.compile(r'"([^"]*)"')
WORD = re.compile(r"[A-Z][a-z]+")
Names = Mapping[str, Expression]
NO_NAMES: Names = {}


def read_expression(text: str) -> Expression:
    """The tree of an expression.

    >>> read_expression("3/4 - *2")
    Plus(first=Number(value=Fraction(3, 4)), second=Negative(of=Nimber(size=2)))
    """
    (whole,) = read_question_parts(text, 1)
    return whole


def read_question_parts(text: str, count: int, names: Names = NO_NAMES) -> list[Expression]:
    """The expressions of a question, one or two, with a semicolon between them.

    `names` are those that may be used, each with the expression that it stands for.

    >>> read_question_parts("* ; 0", 2)
    [Nimber(size=1), Number(value=Fraction(0, 1))]
    """
    reader = Reader(text, names)
    reader.blanks()
    found = [reader.expression()]
    if count == 2:
        reader.need(";")
        found.append(reader.expression())
    reader.blanks()
    if reader.place != len(text):
        reader.fail()
    return found


class Reader:
    """A text, and how far it is read."""

    def __init__(self, text: str, names: Names = NO_NAMES) -> None:
        self.text = text
        self.names = names
        self.place = 0

    def fail(self) -> NoReturn:
        """Ends the reading of a text that can't be certified."""
        rest = self.text[self.place :][:20]
        raise WrongCall(f"{self.text!r} can't be certified: {rest!r} isn't known here")

    def blanks(self) -> None:
        """Goes past blanks."""
        self.take(BLANKS)

    def take(self, pattern: re.Pattern[str]) -> str:
        """What of the text fits a pattern here, which may be nothing."""
        found = pattern.match(self.text, self.place)
        self.place = found.end() if found else self.place
        return found[0] if found else ""

    def next_is(self, sign: str) -> bool:
        """Whether a sign stands here."""
        return self.text.startswith(sign, self.place)

    def sign(self, sign: str) -> bool:
        """Goes past a sign if it stands here."""
        here = self.next_is(sign)
        self.place += len(sign) if here else 0
        return here

    def need(self, sign: str) -> None:
        """Goes past a sign that has to stand here, and the blanks round it."""
        self.blanks()
        if not self.sign(sign):
            self.fail()
        self.blanks()

    def expression(self) -> Expression:
        """Terms with plus and minus signs between them."""
        whole = self.term()
        while True:
            start = self.place
            self.blanks()
            if self.sign("+"):
                self.blanks()
                whole = Plus(whole, self.term())
            elif self.sign("-"):
                self.blanks()
                whole = Plus(whole, Negative(self.term()))
            else:
                self.place = start
                return whole

    def term(self) -> Expression:
        """Parts that stand together, or a negative: a minus belongs to a number behind it."""
        if not self.next_is("-"):
            return self.parts()
        self.place += 1
        if NUMBER.match(self.text, self.place):
            return self.parts(negative=True)
        self.blanks()
        return Negative(self.parts())

    def parts(self, negative: bool = False) -> Expression:
        """A number, multiple or other operand, then ups, then a nimber; not all need be there."""
        found: list[Expression] = []
        if NUMBER.match(self.text, self.place):
            first = self.counted()
            found.append(Negative(first) if negative else first)
        elif not self.next_is("^") and not self.next_is("v") and not self.next_is("*"):
            found.append(self.special())
        if self.next_is("^") or self.next_is("v"):
            found.append(self.ups())
        if self.next_is("*"):
            found.append(self.nimber())
        return sum_of(found)

    def counted(self) -> Expression:
        """A number, or a multiple."""
        found = COUNT.match(self.text, self.place)
        if found:
            self.place = found.end()
            if self.next_is("^") or self.next_is("v"):
                return Multiple(int(found[1]), self.ups())
            inner = self.nimber() if self.next_is("*") else self.special()
            return Multiple(int(found[1]), inner)
        return Number(self.number())

    def number(self) -> Fraction:
        """A number without a sign."""
        text = self.take(NUMBER)
        if not text:
            self.fail()
        return Fraction(text)

    def ups(self) -> Expression:
        """Ups or downs."""
        arrows = self.take(UPS)
        count = self.take(DIGITS) if len(arrows) == 1 else ""
        size = int(count) if count else len(arrows)
        ups: Expression = UP if size == 1 else Multiple(size, UP)
        return ups if arrows[0] == "^" else Negative(ups)

    def nimber(self) -> Nimber:
        """A nimber."""
        self.place += 1
        return Nimber(int(self.take(DIGITS) or "1"))

    def special(self) -> Expression:
        """A switch, tiny, miny, brace, parenthesis, board or name."""
        if self.sign("+-"):
            return switch_of(self.number())
        if self.sign("("):
            self.blanks()
            inner = self.expression()
            self.need(")")
            return inner
        if self.sign("{"):
            return self.brace()
        name = self.take(NAME)
        if name in self.names:
            return self.names[name]
        word = self.take(WORD)
        if word in ("Tiny", "Miny"):
            self.need("(")
            size = self.number()
            self.need(")")
            return tiny_of(size) if word == "Tiny" else miny_of(size)
        if word in GAMES:
            return self.position(word)
        self.fail()

    def position(self, game: str) -> Position:
        """The texts of a board."""
        self.need("(")
        texts = []
        while True:
            found = STRING.match(self.text, self.place)
            text = found[1] if found else self.take(DIGITS)
            self.place = found.end() if found else self.place
            texts.append(text)
            self.blanks()
            if not self.sign(","):
                self.need(")")
                return Position(game, tuple(texts))
            self.blanks()

    def brace(self) -> Brace:
        """The sides of a brace, and the runs of bars between them."""
        sides, bars = [self.side()], []
        while not self.sign("}"):
            run = self.take(BARS)
            if not run:
                self.fail()
            bars.append(len(run))
            sides.append(self.side())
        return split(sides, bars)

    def side(self) -> tuple[Expression, ...]:
        """The options of a side, with commas between them."""
        self.blanks()
        options: list[Expression] = []
        while not self.next_is("|") and not self.next_is("}"):
            options.append(self.expression())
            self.blanks()
            if not self.sign(","):
                break
            self.blanks()
        return tuple(options)


def split(sides: list[tuple[Expression, ...]], bars: list[int]) -> Brace:
    """The brace of some sides: the longest run splits them, a side with a run is one option."""
    at = bars.index(max(bars))
    left, right = sides[: at + 1], sides[at + 1 :]
    lefts = left[0] if at == 0 else (split(left, bars[:at]),)
    rights = right[0] if len(right) == 1 else (split(right, bars[at + 1 :]),)
    return Brace(lefts, rights)
