"""Sessions of the usual kinds, each with its words, made by dice."""

from reference.certificates import Long, prove
from reference.grammar import read_line
from reference.items import Meter, Refused
from reference.boards import Fault

from .positions import GAMES, many_rules, octal, position, sized, spoiled
from .texts import FAR, GREATEST, NUMBERS, expression, halving, question, simple, special, term

LIMIT = 160
GOOD = (
    'value Clobber("xxo") + Clobber ( "xox" )', 'thermo Domineering("...|...")', 'outcome {1|-1} + Toads("T.F")',
    "value {4||2|0} - 3.^*2 + 1/2*", "mean { {3|0} , 1 | -1 }", "temp {2|-1} + +-1/4", "compare -Tiny(2) ; Miny( 1/2 )",
    'value Strip(".=0,0,0;T=0,0,1;L:T.>.T","T.")', 'value Amazons("x..|..o")', "stops ((((1)))) - - 2.^",
    "value {{0|0},{0|{0|0}}||0|||*2}", "outcome vv*3 + ^^^ --2", "proof ^^ ; *", 'check ^^ ; * ; "(g1(h0.g0.)g0.)"',
    'value Hackenbush("0b1,1r2,0g3")', 'outcome Snort("...","ab,bc") - Col ( ".." , "ab" )', 'value Octal( "0.77" , 9 ) + 2.v^',
    "value -2.^*-1^1+-+-1", "g := {2|-1} + ^", "abcdefghijklmnop := temp1 - stopss*2 + abcdefghijklmnopv3",
    "value g2*2^ + -tiny + h",
    "value 000000000000000000000000000001/2", "value {1||||||||2|||||||{3|^000000000000000000000000000002}}",
)
ODD = "\x00\t\r \xff\"{}|,.;:=+-*^v/()0123456789abgTMDCOS#xo~"


def room(dice, lines):
    """The cells of so many lines."""
    return lines * dice.choice([1, 8, 40, 200, 1000, 5000, 5000, 20000])


def words(cells, positions=LIMIT):
    """The words of a command with these settings."""
    return ["--cells", str(cells), "--positions", str(positions)]


def usual(dice):
    """Questions about expressions of all kinds."""
    lines = [question(dice, expression(dice), expression(dice, 1)) for _ in range(dice.randint(1, 4))]
    lines += dice.choice([[], ["# a comment \xfe"], [" \t"], [""]])
    dice.shuffle(lines)
    end = dice.choice(["", "\n", "\r\n"])
    return [(words(max(room(dice, len(lines)), 1), dice.choice([2, 9, LIMIT, LIMIT])), "\n".join(lines) + end)]


def boards(dice):
    """Questions about small positions."""
    lines = [question(dice, position(dice), simple(dice)) for _ in range(dice.randint(2, 5))]
    return [(words(room(dice, len(lines)) + len(lines)), "\n".join(lines) + "\n")]


def needs(text, limit=LIMIT):
    """What a line is charged before it is answered or refused, and the length of its longest list; or None where it isn't
    in the grammar or has an ill-formed board."""
    stated, _ = read_line(text, 1)
    meter = Meter(10**6, limit)
    try:
        for one in stated[1] if stated else ():
            meter.value(one)
    except Refused:
        pass
    except Fault:
        return None
    return (meter.charged, meter.longest) if stated else None


def at_its_limits(text, limit=LIMIT):
    """A line at exactly what it is charged and one cell below, and at its least positions limit and one below."""
    cost, longest = needs(text, limit) or (0, 0)
    settings = [words(max(cost, 1), min(max(longest, 1), limit))]
    settings += [words(cost - 1, limit)] if cost > 1 else []
    settings += [words(max(cost, 1), longest - 1)] if 1 < longest <= limit else []
    return [(one, text + "\n") for one in settings]


def exact_positions(dice):
    """A position of one of the games at its limits, one with several positions where the dice give one in a few throws."""
    game, wide, word = dice.choice(GAMES + GAMES[:3]), dice.random() < 0.7, dice.choice(["value ", "value ", "thermo ", "stops "])
    for _ in range(4):
        text = word + position(dice, game, wide)
        needed = needs(text)
        if needed and 3 < needed[1] <= LIMIT:
            break
    return at_its_limits(text)


def exact_expressions(dice):
    """An expression at its limits, some of them on numbers that are just in range or just narrow."""
    if dice.random() < 0.3:
        one, two = dice.choice(FAR + GREATEST * 8), dice.choice(FAR + NUMBERS + NUMBERS)
        game = dice.choice(["{0}", "{0} - {1}", "{0}* + {1}", "{{{0}|-{1}}}", "2.{{{1}|-{0}}}^", "{{{1}|-{0}}} + {{2|-1}}",
                            "{{2|-1}} - {{{0}||{1}|-2}}", "{{3|1||-1}} + {{{1}||{1}|-{0}}}", "- {{{0}||*|-{1}}} + {{1|*}}"])
        return at_its_limits("value " + game.format(one, two))
    return at_its_limits("value " + dice.choice([term, special, expression])(dice, 1))


def broken_lines(dice):
    """A line that is changed at each of its bytes."""
    form = dice.choice([1, 2])
    good = dice.choice(GOOD) if dice.random() < 0.7 else question(dice, expression(dice, 1), simple(dice))
    places = list(range(len(good) + 1))
    places = sorted(dice.sample(places, min(len(places), 16)))
    way = dice.randrange(4)
    lines = []
    for at in places:
        odd = good[at - 1 : at] or " " if dice.random() < 0.4 else dice.choice(ODD)
        lines.append((good[:at], good[:at] + odd + good[at + 1 :], good[:at] + good[at + 1 :], good[:at] + odd + good[at:])[way])
    return [(words(len(lines) * 200), ("cg 2\n" if form == 2 else "") + "\n".join(lines) + "\n")]


def broken_positions(dice):
    """Positions with a byte of their texts changed."""
    game = dice.choice(GAMES + ("Octal",))
    lines = ["value " + spoiled(dice, game) for _ in range(5)] + ["value " + dice.choice([many_rules, sized])(dice)]
    lines.append("value {1/3," + spoiled(dice, game) + "|" + spoiled(dice, dice.choice(GAMES)) + "}")
    return [(words(len(lines) * 2000, 60), "\n".join(lines) + "\n")]


def names(dice):
    """Definitions and uses of names."""
    known, lines = [], [dice.choice(["cg 2", "cg 2", "cg 2", " cg 2\t", "cg 2\r", "cg  2"])]
    for _ in range(dice.randint(3, 7)):
        long = "abcdefghijklmnop2"[: dice.choice([15, 16, 16, 17])]
        name = dice.choice(["g", "h", "g2", "abcdefghijklmnop", "tempo", "x", "y1", long])
        if dice.random() < 0.6 or not known:
            text = expression(dice, 1, known + ["k"] * (dice.random() < 0.3))
        else:
            text = dice.choice(known)
        if dice.random() < 0.6:
            lines.append(f"{name}{dice.choice(['', ' '])}:={dice.choice(['', ' '])}{text}")
            known.append(name)
        else:
            lines.append(question(dice, text, dice.choice(known or ["k"])))
    return [(words(room(dice, len(lines)) + len(lines)), "\n".join(lines) + "\n")]


def many_parts(dice):
    """A name of 2,047 parts, and lines with about 4,096."""
    lines = ["cg 2", "a := " + dice.choice(["*", "1", "^"])] + [dice.choice(["a := a + a", "a := {a|a}"])] * 10
    more = [" + 1", " - *", ' + Clobber("x")', ' + Col(".","")', ' - Octal("0.77",1)', " + {|}", " + 1*", " - -1^"]
    for _ in range(4):
        tail = "".join(dice.choice(more) for _ in range(dice.choice([0, 1, 1, 2])))
        lines.append(dice.choice(["value a + a", "outcome {a|a}", "compare a ; a", "b := a - a"]) + tail)
    return [(words(len(lines) * dice.choice([20, 400]), 40), "\n".join(lines) + "\n")]


def certificates(dice):
    """A proof of the order, and what it becomes when it is changed at each of its bytes."""
    first, second = dice.choice([simple, lambda d: expression(d, 1)])(dice), simple(dice)
    asked = f"{first} ; {second}"
    lines = [f"proof {asked}", f"proof {second} ; {first}", f'check {asked} ; ""']
    stated, _ = read_line("compare " + asked, 1)
    text = "(g0.)"
    if stated:
        try:
            text = prove(*(Meter(20000, LIMIT).value(one) for one in stated[1])).partition(" ")[2]
        except (Fault, Refused, Long):
            pass
    for at in sorted(dice.sample(range(len(text) + 1), min(len(text) + 1, 7))):
        odd = dice.choice("gh01.()x")
        lines += [f'check {asked} ; "{changed}"' for changed in (text[:at] + odd + text[at + 1 :], text[:at] + text[at + 1 :])]
    lines.append(f'check {asked} ; "{text}"')
    return [(words(len(lines) * 2000), "\n".join(lines) + "\n")]


def far_numbers(dice):
    """Games whose walls need many binary places, and many octal heaps."""
    lines = [f"{word} {halving(dice.randint(17, 24))}" for word in ("mean", "stops", "temp")]
    lines += ["value " + octal(dice) for _ in range(4)]
    return [(words(len(lines) * 2000), "\n".join(lines) + "\n")]


def default_words(dice):
    """A session with the default table and the default positions limit."""
    lines = [question(dice, dice.choice([simple, position])(dice), simple(dice)) for _ in range(dice.randint(1, 5))]
    return [([], "\n".join(lines) + dice.choice(["", "\n"]))]


def long_proofs(dice):
    """Proofs that are long, or too long."""
    lines = []
    for tail in (" + +-1", "", " - {1|-1||-4}"):
        pair = []
        for _ in range(2):
            arrows = f"^{dice.randint(1, 4)}*{dice.randint(2, 6)}"
            pair.append(dice.choice([f"*{dice.randint(5, 11)}", f"*{dice.randint(5, 11)}", arrows, "2.{3|1||-2}", "+-2 + +-1"]))
        lines.append(f"proof {pair[0]}{tail} ; {dice.choice([pair[0] + tail, pair[1], pair[1] + ' - 1'])}")
    lines.append(f"proof *{dice.randint(8, 10)} ; *{dice.randint(8, 10)}" + dice.choice(["", " + 0"]))
    return [(words(len(lines) * 100000, 4000), "\n".join(lines) + "\n")]


def dealt(dice):
    """Lines of odd bytes."""
    odd = ODD.replace("\n", "") + 'value proof check 0123456789{}|,.()+-*^v/";:=ClobberToads'
    lines = ["".join(dice.choice(odd) for _ in range(dice.choice([0, 1, 2, 5, 20, 60]))) for _ in range(8)]
    lines += ["value " + "".join(dice.choice("({[-12.^*v|}),") for _ in range(dice.choice([3, 6, 12]))) for _ in range(8)]
    return [(words(len(lines) * 200), dice.choice(["", "cg 2\n"]) + "\n".join(lines))]
