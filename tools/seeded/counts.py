"""Counts of what sessions asked and were answered: questions, refusals and their causes, games, statuses, kinds of literals."""
import collections
import re

from .positions import MAKERS

QUESTIONS = ("value", "compare", "outcome", "stops", "mean", "temp", "thermo", "proof", "check", "a definition")
REFUSALS = ("syntax", "name", "parts", "positions", "range", "depth", "full", "long")
CAUSES = ("rules", "symbol", "empty", "ragged", "large", "lowering", "edges", "octal", "heap")
GAMES = tuple(sorted(MAKERS))
STATUSES = ("0", "1", "2", "6", "7")

# The kinds of literals, in the order in which they are looked for; a text in quotes stands for none.
LITERALS = (
    ("", r'"[^"]*"|:=|;'),
    ("Tiny", r"Tiny(?=\()"),
    ("Miny", r"Miny(?=\()"),
    ("", r"[A-Z][a-z]+"),
    ("a name", r"[a-uw-z][a-z0-9]*"),
    ("a large multiple", r"0*(?:[6-9]|[1-9][0-9]+)\."),
    ("a multiple", r"[0-9]+\."),
    ("a number of thirty digits", r"(?:[0-9]{30}(?![0-9])(?:/[0-9]+)?|[0-9]+/[0-9]{30})"),
    ("a number with leading zeros", r"0[0-9]+(?:/[0-9]+)?"),
    ("a long number", r"[0-9]{16,}(?:/[0-9]+)?|[0-9]+/[0-9]{10,}"),
    ("a fraction", r"[0-9]+/[0-9]+"),
    ("a whole number", r"[0-9]+"),
    ("hundreds of ups", r"\^[0-9]{3}"),
    ("hundreds of downs", r"v[0-9]{3}"),
    ("a count of ups", r"\^[0-9]+"),
    ("a count of downs", r"v[0-9]+"),
    ("several ups", r"\^\^+"),
    ("several downs", r"vv+"),
    ("an up", r"\^"),
    ("a down", r"v"),
    ("a nimber of hundreds", r"\*[0-9]{3}"),
    ("a nimber", r"\*[0-9]+"),
    ("a star", r"\*"),
    ("several bars", r"\|\|+"),
    ("braces", r"\{"),
    ("parentheses", r"\("),
)
LITERAL = re.compile("|".join(f"(?P<k{at}>{pattern})" for at, (_, pattern) in enumerate(LITERALS)))
SWITCH = re.compile(r"(?:^|[-+{(,;|.])[ \t\r]*\+-(?=[0-9])")
EXPECTED = {
    "question": QUESTIONS,
    "refusal": REFUSALS,
    "cause": CAUSES,
    "game": GAMES,
    "status": STATUSES,
    "literal": tuple(kind for kind, _ in LITERALS if kind) + ("a switch",),
    "blank": ("a space", "a tab", "a carriage return"),
    "lines": ("hundreds",),
}


def counted(text, output, status):
    """The counts of one session, by pairs of a sort and a kind."""
    found = collections.Counter({("status", str(status)): 1})
    lines = text.split("\n")
    replies = [] if status not in (0, 1) else [line.partition(": ") for line in output.split("\n")[:-1]]
    for number, between, reply in replies:
        if between and int(number) <= len(lines):
            count_line(lines[int(number) - 1], reply, found)
    if len(replies) >= 100:
        found["lines", "hundreds"] += 1
    return found


def count_line(line, reply, found):
    """Counts a line and its reply."""
    if reply.startswith("! "):
        refusal, *cause = reply[2:].split(" ")
        if refusal == "board":
            found["cause", cause[0]] += 1
        else:
            found["refusal", refusal] += 1
    if reply.startswith("! syntax"):
        return
    asked, rest = re.fullmatch(r"[ \t\r]*([a-z0-9]+)(.*)", line).groups()
    found["question", asked if asked in QUESTIONS else "a definition"] += 1
    for match in LITERAL.finditer(rest):
        kind = LITERALS[int(match.lastgroup[1:])][0]
        if kind:
            found["literal", kind] += 1
        elif match[0] in GAMES and not reply.startswith("! "):
            found["game", match[0]] += 1
    found["literal", "a switch"] += len(SWITCH.findall(rest))
    for blank, kind in zip(" \t\r", EXPECTED["blank"]):
        found["blank", kind] += blank in rest[1:]


def told(found):
    """The counts in lines, one for each sort."""
    for sort, kinds in EXPECTED.items():
        yield f"{sort}: " + ", ".join(f"{kind} {found[sort, kind]:,}" for kind in kinds)


def missing(found):
    """What never came."""
    return [f"{sort} {kind!r}" for sort, kinds in EXPECTED.items() for kind in kinds if not found[sort, kind]]
