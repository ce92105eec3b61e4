"""The names of canonical forms, taken apart by the manual's table of them."""
from __future__ import annotations

import re
from dataclasses import dataclass
from fractions import Fraction
from typing import Iterator, Optional

from cgcalc.errors import WrongCall

NUMBER = r"-?[0-9]+(?:/[0-9]+)?"
PLAIN = re.compile(rf"({NUMBER})?(?:(\^+|v+)([0-9]*))?(\*[0-9]*)?")
SWITCH = re.compile(rf"\+-({NUMBER})")
TINY = re.compile(rf"(Tiny|Miny)\(({NUMBER})\)")
TOKEN = re.compile(r"[{},|]|[^{},|]+")
NAME = re.compile(r"(?:[-0-9/^v*+{}|,]|(?:Tiny|Miny)\([-0-9/]+\))+")
"""What the names of canonical forms are made of."""
MOST_BARS = 3
MOST_DEPTH = 512

Names = tuple[str, ...]


def may_be_name(text: object) -> bool:
    """Whether something may be the name of a canonical form, by the signs that it is made of.

    >>> may_be_name("{2|Tiny(1)}"), may_be_name("{2|0"), may_be_name("g + 1"), may_be_name(2)
    (True, False, False, False)
    """
    if not isinstance(text, str) or not NAME.fullmatch(text):
        return False
    return text.count("{") == text.count("}")


@dataclass(frozen=True)
class Plain:
    """A number, ups (downs where they are below 0) and a nimber, which are added."""

    number: Fraction
    ups: int = 0
    nim: int = 0

    @property
    def is_number(self) -> bool:
        """Whether it is the number alone."""
        return self.ups == 0 and self.nim == 0

    def __str__(self) -> str:
        letter, size = "^" if self.ups > 0 else "v", abs(self.ups)
        arrows = letter * size if size < 3 else f"{letter}{size}"
        star = "*" if self.nim == 1 else f"*{self.nim}" if self.nim else ""
        number = str(self.number) if self.number or self.is_number else ""
        return number + arrows + star

    def with_star(self, ups: int, nim: int) -> Plain:
        """The same number with other ups and another nimber."""
        return Plain(self.number, ups, nim)


def read_plain(name: str) -> Optional[Plain]:
    """A name that is a number, arrows and a star, of which some may be left out; else None.

    >>> read_plain("1/2^3*")
    Plain(number=Fraction(1, 2), ups=3, nim=1)
    """
    found = PLAIN.fullmatch(name)
    if not found or not name:
        return None
    number, arrows, count, star = found.groups()
    try:
        ups = int(count) if count else len(arrows or "")
        nim = int(star[1:] or "1") if star else 0
        return Plain(Fraction(number or 0), ups if (arrows or "^")[0] == "^" else -ups, nim)
    except (ValueError, ZeroDivisionError):
        return None


def options_of(name: str) -> tuple[Names, Names]:
    """The names of the Left and of the Right options of the canonical form with a name.

    >>> options_of("{2,{3|1}|0}"), options_of("^*"), options_of("Tiny(2)")
    ((('2', '{3|1}'), ('0',)), (('0', '*'), ('0',)), (('0',), ('{0|-2}',)))
    """
    if name.startswith("{") and name.endswith("}"):
        return _options_of_brace(name)
    switch, tiny, plain = SWITCH.fullmatch(name), TINY.fullmatch(name), read_plain(name)
    if switch:
        return (switch[1],), (str(-Fraction(switch[1])),)
    if tiny:
        word, size = tiny.groups()
        return (("0",), (f"{{0|-{size}}}",)) if word == "Tiny" else ((f"{{{size}|0}}",), ("0",))
    if plain is None or plain.nim > MOST_DEPTH:
        raise no_name(name)
    if plain.is_number:
        return _options_of_number(plain.number)
    if plain.ups == 0:
        lesser = tuple(str(plain.with_star(0, nim)) for nim in range(plain.nim))
        return lesser, lesser
    return _options_of_ups(plain)


def _options_of_number(number: Fraction) -> tuple[Names, Names]:
    """A whole number has the next one towards 0; another those next to it with half its places."""
    if number.denominator == 1:
        left = (str(number - 1),) if number > 0 else ()
        return left, (str(number + 1),) if number < 0 else ()
    step = Fraction(1, number.denominator)
    return (str(number - step),), (str(number + step),)


def _options_of_ups(plain: Plain) -> tuple[Names, Names]:
    """Of n ups: {0|n - 1 ups and a star}, and with a star {0|n - 1 ups}, but {0,*|0} of one."""
    toward = plain.ups - 1 if plain.ups > 0 else plain.ups + 1
    near: Names = (str(plain.with_star(0, 0)),)
    far: Names = (str(plain.with_star(toward, 1 - plain.nim)),)
    if toward == 0 and plain.nim == 1:
        near, far = (*near, str(plain.with_star(0, 1))), near
    return (near, far) if plain.ups > 0 else (far, near)


def _options_of_brace(name: str) -> tuple[Names, Names]:
    """What stands between the commas and the bar of a brace's own."""
    sides: list[list[str]] = [[]]
    start, depth = 1, 0
    for found in re.finditer(r"[{},|]", name):
        sign, at = found[0], found.start()
        depth += {"{": 1, "}": -1}.get(sign, 0)
        if depth > 1 or (depth == 1 and sign in "{}"):
            continue
        if start < at:
            sides[-1].append(name[start:at])
        if sign == "|":
            sides.append([])
        start = at + 1
    if len(sides) != 2 or depth != 0:
        raise no_name(name)
    return tuple(sides[0]), tuple(sides[1])


def birthday_of(name: str) -> int:
    """The birthday of the canonical form with a name: 0, or 1 more than the latest of an option.

    >>> birthday_of("0"), birthday_of("3/4"), birthday_of("^"), birthday_of("{2|-1}")
    (0, 3, 2, 3)
    """
    latest = [-1]
    for token in _tokens(name):
        if token == "{":
            latest.append(-1)
        elif token == "}":
            born = latest.pop() + 1
            latest[-1] = max(latest[-1], born)
        elif token not in (",", "|"):
            latest[-1] = max(latest[-1], _birthday_of_plain(token))
    return latest[0]


def _birthday_of_plain(name: str) -> int:
    switch, tiny, plain = SWITCH.fullmatch(name), TINY.fullmatch(name), read_plain(name)
    if switch:
        return _birthday_of_number(Fraction(switch[1])) + 1
    if tiny:
        return _birthday_of_number(Fraction(tiny[2])) + 2
    if plain is None:
        raise no_name(name)
    born = _birthday_of_number(plain.number)
    return born + (abs(plain.ups) + 1 if plain.ups else plain.nim)


def _birthday_of_number(number: Fraction) -> int:
    """A whole number is born on the day of its size; each binary place takes one more day."""
    whole = abs(number.numerator) // number.denominator
    places = number.denominator.bit_length() - 1
    return whole + (places + 1 if places else 0)


def with_bars(name: str) -> str:
    """A name as papers write it: an option that stands alone has more bars in place of its braces.

    >>> with_bars("{4|{2|0}}"), with_bars("{{4|2}|{0|-1}}"), with_bars("{0,{3|1}|{2|0}}")
    ('{4||2|0}', '{4|2||0|-1}', '{0,{3|1}||2|0}')
    """
    frames: list[list[list[tuple[str, int]]]] = [[[]]]
    for token in _tokens(name):
        if token == "{":
            frames.append([[]])
        elif token == "|":
            frames[-1].append([])
        elif token == "}":
            brace = _joined(frames.pop())
            frames[-1][-1].append(brace)
        elif token != ",":
            frames[-1][-1].append((token, 0))
    ((whole,),) = frames[0]
    return _written(*whole)


def _joined(sides: list[list[tuple[str, int]]]) -> tuple[str, int]:
    """A brace without its outer braces, and the number of its bars."""
    bars, texts = 1, []
    for side in sides:
        (text, inner), *others = side or [("", 0)]
        if not others and 0 < inner < MOST_BARS:
            bars = max(bars, inner + 1)
            texts.append(text)
        else:
            texts.append(",".join(_written(*option) for option in side))
    return ("|" * bars).join(texts), bars


def _written(text: str, bars: int) -> str:
    return f"{{{text}}}" if bars else text


def _tokens(name: str) -> Iterator[str]:
    """The braces, commas and bars of a name, and the names between them."""
    depth = bars = 0
    for found in TOKEN.finditer(name):
        token = found[0]
        depth += {"{": 1, "}": -1}.get(token, 0)
        bars += {"|": 1, "}": -1}.get(token, 0)
        if depth < 0 or (depth == 0 and token in ",|"):
            raise no_name(name)
        yield token
    if depth or bars or not name:
        raise no_name(name)


def no_name(name: object) -> WrongCall:
    """What is raised for what is no name of a canonical form."""
    shown = f"{name[:60]}.." if isinstance(name, str) and len(name) > 60 else name
    return WrongCall(f"{shown!r} is no name of a value: take what Session.value answers")
