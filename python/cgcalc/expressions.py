"""The texts of expressions, as far as one has to see through them to add them up."""
from __future__ import annotations

import re

from cgcalc.errors import WrongCall

NUMBER = re.compile(r"(-?)([0-9]+(?:/[0-9]+)?)")
SINGLE = re.compile(r"(?:\^|v)[0-9]+|\^+|v+|\*[0-9]*|\+-[0-9]+(?:/[0-9]+)?|[a-uw-z][a-z0-9]*")
OPENING = re.compile(r"[A-Z]?[a-z]*[{(]")
BRACKET = re.compile(r'"[^"]*"|["{}()]')
CLOSING = {"{": "}", "(": ")"}
SIGN = re.compile(r"[- \t+]")
MORE = re.compile(r"[,;|]|:=")


def outside_of_brackets(text: str) -> str:
    """What of a text stands in no brackets; it has to be one expression for whoever adds to it.

    >>> outside_of_brackets('{2|-1}^ + 2.(1 - *) - Toads("T.F")')
    '^ + 2. - Toads'
    """
    outside, start = "", 0
    closing: list[str] = []
    for found in BRACKET.finditer(text):
        sign = found[0]
        if not closing:
            outside += text[start : found.start()]
        start = found.end()
        if sign in CLOSING:
            closing.append(CLOSING[sign])
        elif sign in ('"', "}", ")") and (not closing or closing.pop() != sign):
            raise WrongCall(f"brackets or quotation marks of {text!r} don't match: mend them")
    outside += "" if closing else text[start:]
    if closing or MORE.search(outside):
        raise WrongCall(f"{text!r} isn't one expression: give a text such as '{{2|-1}} + ^'")
    return outside


def is_primary(text: str) -> bool:
    """Whether a text may stand behind the point of a multiple.

    >>> is_primary("{2|0}"), is_primary("{2|0}^"), is_primary("3")
    (True, False, False)
    """
    if SINGLE.fullmatch(text):
        return True
    if not OPENING.match(text):
        return False
    depth = 0
    for found in BRACKET.finditer(text):
        depth += {"{": 1, "(": 1, "}": -1, ")": -1}.get(found[0], 0)
        if depth == 0 and found[0] in ")}":
            return found.end() == len(text)
    return False
