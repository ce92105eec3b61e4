"""Sessions at the edges of what may be asked, made by dice: deep forms, large counts and heaps, many levels and lines, long
numbers, blanks, and words of the command line."""
import re

from reference.boards import Fault
from reference.certificates import Long, prove
from reference.grammar import read_line
from reference.items import Meter, Refused

from .positions import GAMES, octal, position, spoiled
from .sessions import GOOD, LIMIT, at_its_limits, words
from .texts import edge_number, expression, question, simple, term

MANY = 2000
BLANK = (" ", "\t", "\r", "\r\t ", "   ", "")
OPTIONS = {"workers": (1, 64), "cells": (1, 67108864), "positions": (1, 1048576), "sample": (1, 4096)}


def deep(dice):
    """Forms of about the greatest depth, which is 512."""
    forms = ["^{0}", "v{0}", "^{0}*", "-v{0}*", "{{0|^{0}}}", "{{v{0}*|0}}", "1/2^{0}", "{{^{0}|1}}", "2 + ^{0}", "{{0|^{0}*,1}}"]
    lines = []
    for count in (dice.choice([509, 510]), 511, dice.choice([512, 513])):
        lines.append(dice.choice(["value ", "outcome ", "stops "]) + dice.choice(forms).format(count))
    return [(words(dice.choice([60000, 60000, 6000]), MANY), "\n".join(lines) + "\n")]


def deep_nimbers(dice):
    """Nimbers of about the greatest depth."""
    count = dice.choice([511, 512, 513, 600])
    text = dice.choice(["value *{0}", "outcome *{0}"]).format(count)
    return [(words(dice.choice([263168, 263169, 600000]), MANY), text + "\n")]


def hundreds(dice):
    """Ups, nimbers and multiples of dozens and of hundreds, at their limits."""
    count, small = dice.choice([99, 150, 200, 250, 400]), dice.choice([6, 7, 10, 25, 40])
    forms = ["^{0}", "v{0}*", "1/2^{0}*2", "-^{0}", "v{0}",
             "{0}.*", "{0}.1*", "{0}.(1/2)", "{0}.+-1", "{1}.^", "{1}.v*", "{1}.{{1|0}}",
             "{1}.*2", "*{1}", "{1}.Tiny(1)", "{1}.{{2|1||-1}}", "00{1}.(*2 - 3/4)", "*{1} + *{1}", "{1}.Clobber(\"xo\")"]
    text = dice.choice(forms).format(count, small)
    return at_its_limits("value " + text, MANY)


def nimbers_of_hundreds(dice):
    """Nimbers of hundreds, at their limits."""
    return at_its_limits(f"value *{dice.choice([100, 128, 200, 255])}", MANY)


def large_heaps(dice):
    """Octal heaps of up to a thousand tokens, at their limits, and larger ones."""
    text = "value " + octal(dice, True)
    larger = text[: text.index(",")] + "," + dice.choice(["1001", "01000", "1000000", "0" * 30, "9" * 30]) + ")"
    return at_its_limits(text, MANY) + [(words(20000, MANY), f"{larger}\nvalue Octal(\"0.7\",1001)\n")]


def many_levels(dice):
    """A name that is bound anew to what stands some 60 levels above it, up to about the most levels, which are 1,024."""
    lines = ["cg 2", "a := " + dice.choice(["1", "*", "{|}", "^"])]
    left = 1023 - dice.choice([0, 0, 1, 2, 3])
    while left:
        count = min(left, dice.randint(40, 63))
        before, behind = dice.choice([("-(", ")"), ("{", "|}"), ("{|", "}"), ("2.(", ")"), ("1.(", ")"), ("(0+", ")")])
        lines.append("a := " + before * count + "a" + behind * count)
        left -= count
    above = ["a", "-a", "{a|}", "1.(-a)", "0.(a - 1)", "{|-a}", "1 - a", "(a)", "{{a|}|}"]
    lines += [dice.choice(["value ", "outcome ", "b := "]) + text for text in dice.sample(above, 4)] + ["compare b ; a"]
    return [(words(len(lines) * dice.choice([5, 20, 20, 500]), 40), "\n".join(lines) + "\n")]


def crowded(dice):
    """Hundreds of lines, so that many workers are busy at once."""
    count, named = dice.choice([130, 200, 400]), dice.random() < 0.5
    lines, known = ["cg 2"] if named else [], []
    while len(lines) < count:
        way = dice.randrange(12)
        if named and way <= 1:
            known.append(dice.choice(["g", "h", "k2"]))
            lines.append(f"{known[-1]} := {term(dice, 0, known)}")
        elif way == 2:
            lines.append("value " + position(dice))
        elif way == 3:
            lines.append(dice.choice(["", "# between", "\t", "value {1|", "value 1/3"]))
        else:
            lines.append(question(dice, simple(dice) if way < 8 else term(dice, 0, known), simple(dice)))
    cells = dice.choice([count // 2, count * 20, count * 300, count * 300])
    return [(words(cells, LIMIT), "\n".join(lines) + dice.choice(["", "\n", "\n\n"]))]


def full_sessions(dice):
    """Sessions of about as many lines, or about as many bytes, as there may be."""
    way = dice.randrange(3)
    if way == 0:
        text = "value 1\n" * dice.choice([4095, 4096, 4097])
    elif way == 1:
        text = "# none\n" + "value *\n" * dice.choice([4096, 4097])
    else:
        text = "value *2\n#" + "x" * (1048576 - 10 + dice.choice([-1, 0, 1]))
    return [(words(dice.choice([4096, 4097, 20000]), 40), text)]


def checked_names(dice):
    """Proofs of the order of named games, whole and changed at a byte."""
    first, second = (dice.choice([simple, lambda d: expression(d, 1)])(dice) for _ in range(2))
    lines = ["cg 2", f"g := {first}", f"h2 := {second}", "proof g ; h2", "proof h2;g"]
    stated, _ = read_line(f"compare {first} ; {second}", 1)
    text = "."
    if stated:
        try:
            text = prove(*(Meter(20000, LIMIT).value(one) for one in stated[1])).partition(" ")[2]
        except (Fault, Refused, Long):
            pass
    lines += [f'check g ; h2 ; "{text}"', f'check {first};h2\t;\t"{text}"', f'check g - h2 ; 0 ; "{text}"',
              f'check g ; k ; "{text}"']
    for at in dice.sample(range(len(text) + 1), min(len(text) + 1, 4)):
        lines.append(f'check g ; h2 ; "{text[:at]}{dice.choice("gh01.()")}{text[at + 1 :]}"')
    lines += ["g := g - h2", f'check g ; 0 ; "{text}"', f'check h2 ; g ; "{text}"']
    return [(words(len(lines) * 5000), "\n".join(lines) + "\n")]


def long_numbers(dice):
    """Numbers at the edges of the narrow ones, of those in range, and of thirty digits."""
    forms = ["{0}", "-{0}", "{0} + {1}", "{0} - {1}", "{{{0}|{1}}}", "+-{0}", "Tiny({0})", "Miny( {0} )", "{0}*", "2.({0})",
             "{{{0}|}}",
             "{{|-{0}}}", "{{-{0}|{1}}}", "{0}^", "{{{0}|-{1}}} + {1}"]
    lines = []
    for _ in range(12):
        word = dice.choice(["value", "value", "value", "mean", "temp", "stops", "thermo"])
        lines.append(f"{word} " + dice.choice(forms).format(edge_number(dice), edge_number(dice)))
    lines.append(f"compare {edge_number(dice)} ; {edge_number(dice)}")
    return [(words(len(lines) * 60), "\n".join(lines) + "\n")]


def blanked(dice):
    """Lines with blanks of all kinds where some may stand, and in a few places where none may."""
    lines = []
    for _ in range(10):
        line = dice.choice(GOOD) if dice.random() < 0.5 else question(dice, expression(dice, 1), simple(dice))
        parts = re.split(r"([{}|,();]+|:=| - | \+ )", line)
        line = "".join(dice.choice(BLANK if dice.random() < 0.4 else ("",)) + part for part in parts) + dice.choice(BLANK)
        if dice.random() < 0.3:
            at = dice.randrange(len(line) + 1)
            line = line[:at] + dice.choice([" ", "\t", "\r", "\x0b", "\x0c", "\xa0", "\x00"]) + line[at:]
        lines.append(dice.choice(BLANK) + line)
    lines += [" \t\r", "\r", "\t# \r"]
    mark = dice.choice([[], ["cg 2"], ["\tcg 2 \r"], ["cg\t2"]])
    return [(words(len(lines) * 5000), "\n".join(mark + lines) + dice.choice(["", "\n", "\r\n", "\n\r"]))]


def second_boards(dice):
    """Several positions in one line, of which one behind the first is ill-formed."""
    lines = []
    for _ in range(6):
        good, bad = position(dice), spoiled(dice, dice.choice(GAMES + ("Octal",)))
        last = spoiled(dice, dice.choice(GAMES))
        form = dice.choice(["value {0} + {1}", "compare {0} ; {1}", "value {{{0},{0}|{1}}}", "value {0} - {0} + {1} + {2}",
                            "proof {0} + {1} ; {2}", "value {{1/3|{0}}} + {1}", 'check {0} ; {1} ; "."'])
        lines.append(form.format(good, bad, last))
    return [(words(len(lines) * 1000), "\n".join(lines) + "\n")]


def edge_words(dice):
    """Words of the command line, one of them at an edge of what an option may be."""
    line = []
    for at, name in enumerate(dice.sample(list(OPTIONS), dice.choice([1, 1, 2, 3]))):
        low, high = OPTIONS[name]
        within = [low, low + 1, high if name not in ("cells", "sample") else 4095]
        value = str(dice.choice([low - 1, high + 1] if at == 0 and dice.random() < 0.4 else within))
        value = dice.choice([value, value, "+" + value, value.zfill(dice.choice([2, 25]))])
        if at == 0 and dice.random() < 0.1:
            value = dice.choice(["", "+", "-1", "+-1", "1 ", " 1", "1_0", "0x1", "1.", "18446744073709551616", "\xb2", "--", "-"])
        line += [f"--{name}={value}"] if dice.random() < 0.5 else [f"--{name}", value]
    odd = ["--", "-", "", "extra", "--help", "-h", "--cells", "--Cells=5", "--cell=5", "--version", "\xe9"]
    no_letters = ["\udcff", "--cells=\udcc3", "--\udce9=1", "\udcf0\udc9f"]
    if dice.random() < 0.4:
        line.insert(dice.randrange(len(line) + 1), dice.choice(dice.choice([odd, no_letters])))
    if dice.random() < 0.2:
        line.append("--")
    return [(line, "value {0|0}\nvalue *2\n" + dice.choice(["", "value 1/2^\n" * 20]))]


def odd_words(dice):
    """Words of the command line, good and bad, and the sample."""
    good = ["--workers", "--cells", "--positions", "--sample", "--workers=2", "--cells=30", "--positions=+9", "--sample=7"]
    values = ["1", "03", "+5", "64", "65", "0", "4096", "4097", "-1", "", "9x", "67108865", "1048577", "99999999999999999999"]
    line = []
    for _ in range(dice.randint(0, 3)):
        if dice.random() < 0.8:
            line += [dice.choice(good), dice.choice(values)]
        else:
            line.append(dice.choice(good + ["--", "--help", "-", "extra"]))
    if dice.random() < 0.3:
        line = ["--sample", str(dice.randint(1, 24)), "--cells", str(dice.choice([5, 300, 40000])), "--positions", "60"]
    return [(line + dice.choice([[], [], ["--"]]), "value {0|0}\nvalue *2\n")]
