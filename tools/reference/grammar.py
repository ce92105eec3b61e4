"""The grammar of a line, in both formats, and the expression that a line means."""
from .expressions import Board, Braces, Multiple, Name, Negative, Nimber, Number, Octal, Sum, Switch, Tiny, Ups
from .recognise import Grammar

BLANKS = " \t\r"
DIGITS = "0123456789"
SMALL = "abcdefghijklmnopqrstuvwxyz"
FIRSTS = tuple(SMALL.replace("v", ""))
WORDS = ("value", "compare", "outcome", "stops", "mean", "temp", "thermo", "proof", "check")

QUERIES = """
line     = B query B
query    = ( "value" | "outcome" | "stops" | "mean" | "temp" | "thermo" ) B1 expr
         | ( "compare" | "proof" ) B1 expr B ";" B expr
         | "check" B1 expr B ";" B expr B ";" B string
"""
STATEMENTS = QUERIES.replace("B query B", "B query B | B define B") + """
define   = name B ":=" B expr
"""
EXPRESSIONS = """
expr     = term { B sign B term }
sign     = "+" | "-"
term     = [ "-" ] counted tail
         | special tail
         | ups [ nim ]
         | nim
         | "-" body
body     = B1 counted tail
         | B ( special tail | ups [ nim ] | nim )
tail     = [ ups ] [ nim ]
counted  = number | multiple
number   = digits [ "/" digits ]
multiple = digits "." primary
primary  = ups | nim | special
special  = switch | tiny | braces | paren | board | octal
switch   = "+-" number
tiny     = ( "Tiny" | "Miny" ) "(" B number B ")"
ups      = arrows
nim      = "*" [ digits ]
braces   = "{" side bars side { bars side } "}"
side     = B [ expr { B "," B expr } B ]
paren    = "(" B expr B ")"
board    = ( "Domineering" | "Clobber" | "Amazons" | "Toads" | "Hackenbush" ) B "(" B string B ")"
         | ( "Strip" | "Col" | "Snort" ) B "(" B string B "," B string B ")"
octal    = "Octal" B "(" B string B "," B whole B ")"
string   = text
bars     = run
whole    = digits
"""
NAMES = """
name     = word
"""


def run_end(text, start, letters):
    """Where the run of these letters ends that begins at the place."""
    while start < len(text) and text[start] in letters:
        start += 1
    return start


def blanks(reading, start):
    """Any number of blanks: all ways."""
    end = run_end(reading.text, start, BLANKS)
    reading.mark(end)
    return range(start, end + 1)


def some_blanks(reading, start):
    """At least one blank: all ways."""
    return blanks(reading, start)[1:]


def digits(reading, start, most=30):
    """As many digits as come, which are thirty at most."""
    end = run_end(reading.text, start, DIGITS)
    reading.mark(min(end, start + most))
    return [end] if start < end <= start + most else []


def arrows(reading, start):
    """As many carets as come, or as many letters v; one alone may have a count, and several are followed by no digit."""
    text = reading.text
    if text[start : start + 1] not in ("^", "v"):
        return []
    end = run_end(text, start, text[start])
    reading.mark(end)
    if not text[end : end + 1].isdecimal():
        return [end]
    return digits(reading, end) if end == start + 1 else []


def bars(reading, start):
    """As many bars as come, which are eight at most."""
    end = run_end(reading.text, start, "|")
    reading.mark(min(end, start + 8))
    return [end] if start < end <= start + 8 else []


def string(reading, start):
    """A text between quotation marks, of the bytes 0x20 to 0x7E."""
    text = reading.text
    if text[start : start + 1] != '"':
        return []
    end = start + 1
    while end < len(text) and " " <= text[end] <= "~" and text[end] != '"':
        end += 1
    reading.mark(end)
    return reading.take(end, '"')


def name(reading, start):
    """A small letter but v, then as many small letters and digits as come, sixteen bytes at most, and no word of a question."""
    text = reading.text
    if text[start : start + 1] not in FIRSTS:
        return []
    end = min(run_end(text, start, SMALL + DIGITS), start + 16)
    reading.mark(end)
    return [] if text[start:end] in WORDS else [end]


TOKENS = {"B": blanks, "B1": some_blanks, "digits": digits, "arrows": arrows, "run": bars, "text": string, "word": name}
HIDDEN = ("line", "counted", "tail", "body", "primary", "special")
BRACKETS = ("braces", "paren")
FORMATS = {
    1: Grammar(QUERIES + EXPRESSIONS, TOKENS, HIDDEN, BRACKETS),
    2: Grammar(STATEMENTS + EXPRESSIONS.replace("board | octal", "board | octal | name") + NAMES, TOKENS, HIDDEN, BRACKETS),
}


def read_line(text, form):
    """What the line states in the format, (word, expressions, text, name), and the column at which it is refused, or None.

    A definition is the question `value` with a name. The rule on runs of bars comes behind all others: where a line breaks
    it alone, the column is the least at which a run begins that has the length of an earlier run of its brace with no
    longer run between.
    """
    nodes, passed = FORMATS[form].read("line", text)
    if nodes is None:
        return None, passed + 1
    (node,) = nodes
    repeated = equal_runs(node)
    if repeated:
        return None, min(repeated) + 1
    expressions = tuple(expression(inside, text) for inside in node.inside if inside.name == "expr")
    written = [content(inside, text) for inside in node.inside if inside.name == "string"]
    defined = [text[inside.start : inside.end] for inside in node.inside if inside.name == "name"]
    asked = "value" if defined else text[node.start : run_end(text, node.start, SMALL)]
    return (asked, expressions, written[0] if written else None, defined[0] if defined else None), None


def equal_runs(node):
    """The places of all runs of bars that have the length of an earlier run of their brace with no longer run between."""
    found = [place for inside in node.inside for place in equal_runs(inside)]
    runs = [(inside.start, inside.end - inside.start) for inside in node.inside if inside.name == "bars"]
    for at, (place, length) in enumerate(runs):
        for before in range(at):
            if runs[before][1] == length and all(between <= length for _, between in runs[before + 1 : at]):
                found.append(place)
    return found


def content(node, text):
    """What stands between the quotation marks."""
    return text[node.start + 1 : node.end - 1]


def expression(node, text):
    """The expression of a node of the grammar."""
    return MAKERS[node.name](node, text)


def sum_of(node, text):
    """A sum of terms, or its one term."""
    terms = [expression(inside, text) for inside in node.inside if inside.name == "term"]
    minus = [False] + [text[inside.start] == "-" for inside in node.inside if inside.name == "sign"]
    return terms[0] if len(terms) == 1 else Sum(tuple(zip(minus, terms)))


def term(node, text):
    """Parts that stand together, with the minus before them: before a digit it is the sign of the first part alone."""
    parts = [expression(inside, text) for inside in node.inside]
    minus = text[node.start] == "-"
    signed = minus and text[node.start + 1] in DIGITS
    if signed:
        first = parts[0]
        parts[0] = first._replace(negative=True) if isinstance(first, Number) else Negative(first)
    together = parts[0] if len(parts) == 1 else Sum(tuple((False, part) for part in parts))
    return Negative(together) if minus and not signed else together


def number(node, text):
    """A numerator and a denominator, which is 1 where none is written."""
    above, _, below = text[node.start : node.end].partition("/")
    return Number(False, int(above), int(below or "1"))


def multiple(node, text):
    """A count, and what is counted behind the point."""
    (counted,) = node.inside
    return Multiple(int(text[node.start : text.index(".", node.start)]), expression(counted, text))


def ups(node, text):
    """A run of arrows, or an arrow with its count."""
    written = text[node.start : node.end]
    counted = written[-1] in DIGITS
    return Ups(written[0] == "v", int(written[1:]) if counted else len(written))


def braces(node, text):
    """The game of a row of lists with runs of bars between them, split at the longest run first."""
    row = []
    for inside in node.inside:
        if inside.name == "side":
            row.append(tuple(expression(one, text) for one in inside.inside))
        else:
            row.append(inside.end - inside.start)
    return split(row)


def split(row):
    """The brace of lists at even places and lengths of runs between them."""
    at = row.index(max(row[1::2]))
    left, right = row[:at], row[at + 1 :]
    return Braces(left[0] if len(left) == 1 else (split(left),), right[0] if len(right) == 1 else (split(right),))


def board(node, text):
    """A position: in Strip the first text has the rules, in Col and Snort the second has the edges, as in Hackenbush the one."""
    game = text[node.start : run_end(text, node.start, SMALL + SMALL.upper())]
    texts = [content(inside, text) for inside in node.inside]
    if game == "Strip":
        rules, cells = texts
    elif game in ("Col", "Snort"):
        cells, rules = texts
    else:
        rules, cells = ("", texts[0]) if game != "Hackenbush" else (texts[0], "")
    return Board(game, rules, cells)


def octal(node, text):
    """A heap of an octal game, by its code and its tokens."""
    code, heap = node.inside
    return Octal(content(code, text), int(text[heap.start : heap.end]))


MAKERS = {
    "expr": sum_of,
    "term": term,
    "number": number,
    "multiple": multiple,
    "switch": lambda node, text: Switch(*number(node.inside[0], text)[1:]),
    "tiny": lambda node, text: Tiny(text[node.start] == "M", *number(node.inside[0], text)[1:]),
    "ups": ups,
    "nim": lambda node, text: Nimber(int(text[node.start + 1 : node.end] or "1")),
    "braces": braces,
    "paren": lambda node, text: expression(node.inside[0], text),
    "board": board,
    "octal": octal,
    "name": lambda node, text: Name(text[node.start : node.end], node.start + 1),
}
