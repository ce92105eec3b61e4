"""Expressions and values as papers write them, in LaTeX."""
from __future__ import annotations

import re

TOKENS = re.compile(
    r"""
      (?P<blank>[ \t]+)
    | (?P<text>"[^"]*")
    | (?P<tiny>(?P<form>Tiny|Miny)\([ ]*(?P<size>-?[0-9]+(?:/[0-9]+)?)[ ]*\))
    | (?P<parts>(?P<first>[0-9]+(?:/[0-9]+)?)(?P<ups>(?:\^+|v+)[0-9]*)(?P<last>(?:\*[0-9]*)?))
    | (?P<number>[0-9]+(?:/[0-9]+)?)
    | (?P<arrows>(?:\^+|v+)[0-9]*)
    | (?P<star>\*[0-9]*)
    | (?P<bars>\|+)
    | (?P<switch>\+-(?=[0-9]))
    | (?P<word>[A-Za-z][A-Za-z0-9]*)
    | (?P<sign>.)
    """,
    re.VERBOSE | re.DOTALL,
)
BARS = {1: r" \mid ", 2: r" \parallel "}
SIGNS = {"{": r"\{", "}": r"\}", ",": ", ", "+": " + ", "-": " - ", ".": r" \cdot ", ";": ";\\ "}
ENDS = ("text", "tiny", "parts", "number", "arrows", "star", "word")
SPECIAL = {"\\": r"\backslash", "#": r"\#", "%": r"\%", "&": r"\&", "$": r"\$", "_": r"\_"}
TYPED = {" ": "\\ ", "{": r"\{", "}": r"\}", "^": r"{\wedge}", "~": r"{\sim}", "'": r"\text{'}"}
"""What is written for a sign of a board: in a formula, so that TeX and MathJax read it alike."""
PLAIN = {
    **{letter: f"\\{letter}" for letter in "#%&$_{}"},
    "\\": r"\textbackslash{}",
    "^": r"\textasciicircum{}",
    "~": r"\textasciitilde{}",
    "|": r"\textbar{}",
    "<": r"\textless{}",
    ">": r"\textgreater{}",
}


def latex_of(expression: str) -> str:
    r"""An expression in LaTeX. Any text gives some LaTeX; it isn't asked whether it is refused.

    >>> print(latex_of("{4||2|0} - 3/2^3*"))
    \{4 \parallel 2 \mid 0\} - (\tfrac{3}{2} + 3{\cdot}{\uparrow}{\ast})
    >>> print(latex_of("+-1 + Tiny(2) + *3"))
    {\pm}1 + \boldsymbol{+}_{2} + {\ast}3
    """
    written = before = ""
    for found in TOKENS.finditer(expression):
        kind = str(found.lastgroup)
        if kind == "blank":
            before = "minus blank" if before == "minus" else before
            continue
        piece = _piece(kind, found, before)
        written += f"({piece})" if kind == "parts" and before == "minus blank" else piece
        before = _state(kind, found[0], before)
    return re.sub(" +", " ", written).strip()


def _state(kind: str, token: str, before: str) -> str:
    """What stands before the next token: the kind of one, or a minus that negates a whole term."""
    if kind != "sign":
        return kind
    if token == "-":
        return "minus blank" if before in ENDS else "minus"
    return "text" if token in ")}" else "sign"


def _piece(kind: str, found: re.Match[str], before: str) -> str:
    """A token in LaTeX, behind a token of some kind."""
    token = found[0]
    if kind == "text":
        return rf"\mathtt{{{_typed(token[1:-1])}}}"
    if kind == "tiny":
        sign = "+" if found["form"] == "Tiny" else "-"
        return rf"\boldsymbol{{{sign}}}_{{{_number(found['size'])}}}"
    if kind == "parts":
        return f"{_number(found['first'])} + {_arrows(found['ups'])}{_star(found['last'])}"
    if kind == "number":
        return _number(token)
    if kind == "arrows":
        return _arrows(token)
    if kind == "star":
        return _star(token)
    if kind == "bars":
        return BARS.get(len(token), rf" \mathrel{{{token}}} ")
    if kind == "switch":
        return " - " if before in ENDS else r"{\pm}"
    if kind == "word":
        return rf"\text{{{token}}}" if token[0].isupper() else rf"\mathit{{{token}}}"
    if token == "-" and before not in ENDS:
        return "-"
    return SIGNS.get(token) or _escaped(token)


def _star(token: str) -> str:
    return rf"{{\ast}}{token[1:]}" if token else ""


def _number(text: str) -> str:
    sign, digits = ("-", text[1:]) if text.startswith("-") else ("", text)
    above, slash, below = digits.partition("/")
    return rf"{sign}\tfrac{{{above}}}{{{below}}}" if slash else sign + digits


def _arrows(token: str) -> str:
    digits = token.lstrip("^v")
    count = int(digits) if digits else len(token)
    way = "up" if token[0] == "^" else "down"
    if count == 2:
        return rf"{{\{way.capitalize()}arrow}}"
    return (rf"{count}{{\cdot}}" if count != 1 else "") + rf"{{\{way}arrow}}"


def plain_latex(text: str) -> str:
    r"""A text as it stands, in LaTeX outside of formulas.

    >>> print(plain_latex("..|#."))
    ..\textbar{}\#.
    """
    return "".join(PLAIN.get(letter, letter) for letter in text)


def _typed(text: str) -> str:
    """The text of a board in type of one width, in which no sign has space around it."""
    written = ""
    for letter in text:
        plain = letter.isalnum() or letter in ".|"
        written += letter if plain else {**SPECIAL, **TYPED}.get(letter, f"{{{letter}}}")
    return written


def _escaped(text: str) -> str:
    return "".join(SPECIAL.get(letter, letter) for letter in text)
