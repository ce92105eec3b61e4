"""Texts of expressions, made by dice."""
from .positions import GAMES, octal, position

BLANKS = ("", "", "", "", " ", " ", "\t", "  ", "\r", "\t \r")
NUMBERS = ("0", "1", "2", "3", "5", "1/2", "3/4", "5/8", "7/2", "1/16", "12", "007/08")
GREATEST = ("18446744073709551615",)
FAR = ("6/3", "1/3", "1/0", "18446744073709551615", "18446744073709551616", "1/1099511627776", "1/2199023255552",
       "4503599627370495", "4503599627370496", "1/2147483648", "1/4294967296", "9223372036854775807/2",
       "99999999999999999999999999999")


def number(dice):
    """A literal."""
    if dice.random() < 0.03:
        return dice.choice([dice.choice(FAR), edge_number(dice)])
    return dice.choice(NUMBERS)


def edge_number(dice):
    """A literal near one of the edges: of narrow numbers, of those in range, and of thirty digits."""
    above = 2 ** dice.choice([0, 31, 40, 52, 53, 63, 64]) + dice.choice([-1, 0, 1])
    shift = dice.choice([0, 0, 0, 1, 5, 20])
    below = dice.choice([1, 1] + [2**power for power in (1, 30, 31, 32, 39, 40, 41, 64)]) << shift
    below = dice.choice([below] * 8 + [below + 1, 0])
    digits = [str(above << shift), str(below)][: 1 if below == 1 and dice.random() < 0.5 else 2]
    return "/".join(digit.zfill(dice.choice([1, 1, 1, 1, 3, 29, 30, 30, 31])) for digit in digits)


def arrows(dice):
    """Ups or downs."""
    if dice.random() < 0.02:
        return dice.choice("^v") + str(dice.choice([7, 17, 40, 120, 300]))
    return dice.choice(["^", "v", "^^", "vv", "^3", "v2", "^^^", "^0", "v5"])


def nimber(dice):
    """A nimber."""
    return "*" + str(dice.choice([7, 9, 30, 100])) if dice.random() < 0.02 else dice.choice(["*", "*", "*2", "*3", "*0", "*4"])


def copies(dice):
    """The count of a multiple."""
    return dice.choice(["6", "7", "12", "40", "0009", "300"]) if dice.random() < 0.05 else dice.choice(["0", "1", "2", "3", "5"])


def special(dice, depth, names=()):
    """What may stand behind the point of a multiple, but for arrows and nimbers."""
    way = dice.randrange(12)
    if way == 0:
        return "+-" + number(dice)
    if way == 1:
        return dice.choice(["Tiny", "Miny"]) + "(" + dice.choice(BLANKS) + number(dice) + dice.choice(BLANKS) + ")"
    if way <= 3:
        return position(dice, dice.choice(GAMES))
    if way == 4:
        return octal(dice)
    if way <= 6 and names:
        return dice.choice(names)
    if way <= 8 and depth:
        return "(" + expression(dice, depth - 1, names) + ")"
    return braces(dice, depth, names)


def braces(dice, depth, names=()):
    """Braces with one run of bars, or with runs of several lengths."""

    def blank():
        return dice.choice(BLANKS)

    if depth and dice.random() < 0.2:
        runs = dice.choice([("||", "|"), ("|", "||"), ("|", "||", "|"), ("|||", "||", "|"), ("|", "|"), ("||||||||", "|")])
        return "{" + "".join(options(dice, depth - 1, names) + run for run in runs) + options(dice, depth - 1, names) + "}"
    deeper = max(depth - 1, 0)
    return "{" + blank() + options(dice, deeper, names) + blank() + "|" + options(dice, deeper, names) + blank() + "}"


def options(dice, depth, names=()):
    """None to two expressions with commas."""
    comma = dice.choice([",", ", ", " ,"])
    return comma.join(expression(dice, depth, names) if depth else simple(dice) for _ in range(dice.choice([0, 1, 1, 1, 2])))


def simple(dice):
    """A number, a few arrows or a nimber, perhaps together."""
    alone = [number(dice), "-" + number(dice), arrows(dice), nimber(dice)]
    return dice.choice(alone + [number(dice) + nimber(dice), arrows(dice) + "*"])


def term(dice, depth, names=()):
    """A term."""
    way = dice.randrange(8)
    if way <= 2:
        return simple(dice)
    tail = dice.choice(["", "", "", arrows(dice), nimber(dice), "^*2"])
    if way == 3:
        inner = special(dice, depth, names) if dice.random() < 0.5 else dice.choice([arrows(dice), nimber(dice)])
        return dice.choice(["", "", "-"]) + copies(dice) + "." + inner + tail
    if way == 4:
        return "-" + dice.choice(["", " "]) + special(dice, depth, names) + tail
    if way == 5:
        return "- " + number(dice) + tail
    return special(dice, depth, names) + tail


def expression(dice, depth=2, names=()):
    """A sum of one to three terms."""
    text = term(dice, depth, names)
    for _ in range(dice.choice([0, 0, 0, 1, 1, 2])):
        text += dice.choice(BLANKS) + dice.choice("+-") + dice.choice(BLANKS) + term(dice, depth, names)
    return text


def question(dice, text, other):
    """A question about an expression, or about two."""
    word = dice.choice(["value", "value", "value", "outcome", "stops", "mean", "temp", "thermo", "thermo", "compare", "proof"])
    if word in ("compare", "proof"):
        return f"{word} {text}{dice.choice(BLANKS)};{dice.choice(BLANKS)}{other}"
    return f"{dice.choice(BLANKS)}{word}{dice.choice([' ', ' ', chr(9)])}{text}{dice.choice(BLANKS)}"


def halving(levels):
    """A game whose mean needs one binary place more for each level."""
    text = "1/1099511627776"
    for level in range(levels):
        text = "{%d|%s}" % (4 ** level, text)
    return text
