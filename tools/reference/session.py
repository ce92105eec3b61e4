"""Sessions: their lines, the reply to each, and what the program writes."""
from . import certificates, forms, octal, play, walls
from .boards import Fault
from .expressions import Name, expanded, leaves, size
from .grammar import BLANKS, read_line
from .items import Meter, Refused
from .naming import name
from .words import settings_of

USAGE = "usage: cg [--workers W] [--cells N] [--positions P] [--sample n]\n"
MOST_BYTES, MOST_LINES = 1048576, 4096
MOST_PARTS, MOST_LEVELS = 4096, 1024


def forget():
    """Forgets what was found out for other sessions."""
    for module in (forms, walls, octal, play):
        module.forget()


def run(words, read):
    """What is written and the status, for the words and a function that reads the input as text, a letter for each byte.

    A byte of a word that is no part of UTF-8 stands there as a half of a surrogate pair.
    """
    if any("\ud800" <= letter <= "\udfff" for word in words for letter in word):
        return "", 7
    settings = settings_of(words)
    if settings is None:
        return USAGE, 2
    text = sample(settings["sample"]) if settings["sample"] else read()
    form, lines = answered(text)
    if len(text) > MOST_BYTES or len(lines) > min(MOST_LINES, settings["cells"]):
        return "", 6
    replies = list(answer(form, lines, settings["cells"], settings["positions"]))
    refused = sum(reply.startswith("! ") for _, reply in replies)
    output = "".join(f"{number}: {reply}\n" for number, reply in replies)
    if settings["sample"]:
        output = f"lines {settings['sample']} refused {refused} bytes {len(output)}\n"
    return output, 1 if refused else 0


def answered(text):
    """The format of a session, and its answered lines with their numbers: neither blank nor comments, nor the first of
    format 2."""
    lines = text.split("\n")
    form = 2 if lines[0].strip(BLANKS) == "cg 2" else 1
    found = []
    for number, line in enumerate(lines, 1):
        rest = line.lstrip(BLANKS)
        if rest and rest[0] != "#" and (form == 1 or number > 1):
            found.append((number, line))
    return form, found


def answer(form, lines, cells, positions):
    """Each answered line's number and its reply."""
    bound = {}
    for number, line in lines:
        yield number, reply(line, form, bound, cells // len(lines), positions)


def reply(line, form, bound, share, limit):
    """The reply to a line. A definition binds its name, but where the grammar, an unknown name or its parts refuse it."""
    stated, column = read_line(line, form)
    if stated is None:
        return f"! syntax {column}"
    question, expressions, text, defined = stated
    uses = [use for expression in expressions for use in leaves(expression, Name)]
    unknown = [use.column for use in uses if use.text not in bound]
    if unknown:
        return f"! name {min(unknown)}"
    if uses:
        expressions = tuple(expanded(expression, bound) for expression in expressions)
        known = {}
        sizes = [size(expression, known) for expression in expressions]
        if sum(parts for parts, _ in sizes) > MOST_PARTS or max(levels for _, levels in sizes) > MOST_LEVELS:
            return "! parts"
    if defined:
        bound[defined] = expressions[0]
    return closed_reply(question, expressions, text, share, limit)


def closed_reply(question, expressions, text, share, limit):
    """The reply to a question without names: of an ill-formed board, of an item that is refused, or the answer."""
    try:
        play.look_at_boards(expressions)
        meter = Meter(share, limit)
        values = [meter.value(expression) for expression in expressions]
    except Fault as fault:
        return f"! board {fault}"
    except Refused as refused:
        return f"! {refused}"
    return ANSWERS[question](*values, *([] if text is None else [text]))


def compared(g, h):
    """`<`, `>`, `=`, or two bars where the games are confused."""
    signs = {(True, True): "=", (True, False): "<", (False, True): ">", (False, False): "||"}
    return signs[forms.at_most(g, h), forms.at_most(h, g)]


def outcome(g):
    """Who wins: Left, Right, the previous player or the next player."""
    return {"=": "P", "<": "R", ">": "L", "||": "N"}[compared(g, forms.number(0))]


def stops(g):
    """Both stops."""
    left, right = forms.stops(g)
    return f"left {left} right {right}"


def of_walls(told):
    """The answer by the thermograph, but where a mean or a temperature needs too many binary places."""

    def answer_by_walls(g):
        return "! range" if walls.has_long_wall(g) else told(walls.thermograph(g))

    return answer_by_walls


def corners(wall):
    """The corners of a wall, with a blank between."""
    return " ".join(f"{value}@{at}" for value, at in wall)


def thermo(graph):
    """The mean, the temperature and both walls."""
    return f"mean {graph.mean} temp {graph.temperature} left {corners(graph.left)} right {corners(graph.right)}"


def proof(g, h):
    """Whether G >= H, with its proof."""
    try:
        return certificates.prove(g, h)
    except certificates.Long:
        return "! long"


ANSWERS = {
    "value": name,
    "compare": compared,
    "outcome": outcome,
    "stops": stops,
    "mean": of_walls(lambda graph: str(graph.mean)),
    "temp": of_walls(lambda graph: str(graph.temperature)),
    "thermo": of_walls(thermo),
    "proof": proof,
    "check": lambda g, h, text: "yes" if certificates.check(g, h, text) else "no",
}


def sample(count):
    """The built-in session of so many lines."""
    lines = []
    for i in range(1, count + 1):
        a, b = i % 5, i * i % 7
        stones, dots = "xoxo"[: a % 3 + 2], "." * (a % 3 + 1)
        lines.append(
            (
                f'value Domineering("{dots}|{dots}")',
                f"value {{{a}|-{b}}}",
                f"value ^{a} + *",
                f"compare ^{a} ; *{b}",
                f"temp {{{a}||{b}|-{a}}}",
                f'outcome Clobber("{stones}")',
            )[i % 6]
        )
    return "".join(line + "\n" for line in lines)
