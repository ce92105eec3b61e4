"""Games as trees, their order, and canonical forms, by the textbook's definitions.

A form is a number or two lists of forms. Equal trees are one object, so what was found out of them can be looked up. The
lists of every form that is made here rise strictly in the structural order.
"""
from fractions import Fraction
from functools import cmp_to_key
from math import ceil, floor


class Form:
    """A number, or the lists of Left's and Right's options; and the depth."""

    __slots__ = ("number", "lefts", "rights", "depth")

    def __init__(self, number, lefts, rights, depth):
        self.number, self.lefts, self.rights, self.depth = number, lefts, rights, depth


NUMBERS: dict = {}
NODES: dict = {}
ORDER: dict = {}
CANONICAL: dict = {}
SUMS: dict = {}
NEGATIVES: dict = {}
POSITIONS: dict = {}
STOPS: dict = {}
NIMBERS: list = []


def forget():
    """Forgets all forms and what was found out of them."""
    for table in (NUMBERS, NODES, ORDER, CANONICAL, SUMS, NEGATIVES, POSITIONS, STOPS, NIMBERS):
        table.clear()


def number(value):
    """The form of a number."""
    value = Fraction(value)
    place = (value.numerator, value.denominator)
    form = NUMBERS.get(place)
    if form is None:
        form = NUMBERS[place] = Form(value, None, None, 0)
    return form


def by_structure(g, h):
    """-1, 0 or 1: numbers by value come first, then other forms by their lists, entry by entry, a list before those that it
    begins. Equal trees are one object, so the first entries that aren't one decide."""
    while g is not h:
        if g.number is not None or h.number is not None:
            return -1 if h.number is None or g.number is not None and g.number < h.number else 1
        for side, other in ((g.lefts, h.lefts), (g.rights, h.rights)):
            common = min(len(side), len(other))
            if side[:common] != other[:common]:
                g, h = next((a, b) for a, b in zip(side, other) if a is not b)
                break
            if len(side) != len(other):
                return -1 if len(side) < len(other) else 1
    return 0


def in_order(options):
    """The options in the structural order, each once."""
    once = tuple(dict.fromkeys(options))
    return once if len(once) < 2 else tuple(sorted(once, key=cmp_to_key(by_structure)))


def node(lefts, rights):
    """The form with these options, which are put in order and of which equal ones are one."""
    lefts, rights = in_order(lefts), in_order(rights)
    form = NODES.get((lefts, rights))
    if form is None:
        depth = 1 + max((option.depth for option in lefts + rights), default=0)
        form = NODES[lefts, rights] = Form(None, lefts, rights, depth)
    return form


def left_options(form):
    """Left's options; those of a number are n for n + 1 >= 1, and (m - 1)/2^k for m/2^k with k >= 1 and m odd."""
    if form.number is None:
        return form.lefts
    x = form.number
    if x.denominator > 1:
        return (number(x - Fraction(1, x.denominator)),)
    return (number(x - 1),) if x > 0 else ()


def right_options(form):
    """Right's options; those of a number are -n for -(n + 1) <= -1, and (m + 1)/2^k for m/2^k with k >= 1 and m odd."""
    if form.number is None:
        return form.rights
    x = form.number
    if x.denominator > 1:
        return (number(x + Fraction(1, x.denominator)),)
    return (number(x + 1),) if x < 0 else ()


def at_most(g, h):
    """Whether G <= H: no Left option A of G has H <= A, and no Right option B of H has B <= G."""
    if g.number is not None and h.number is not None:
        return g.number <= h.number
    known = ORDER.get((g, h))
    if known is None:
        known = True
        for a in left_options(g):
            if at_most(h, a):
                known = False
                break
        if known:
            for b in right_options(h):
                if at_most(b, g):
                    known = False
                    break
        ORDER[g, h] = known
    return known


def left_stop(form):
    """A number's is the number; else the greatest Right stop of a Left option."""
    return form.number if form.number is not None else stops(form)[0]


def right_stop(form):
    """A number's is the number; else the least Left stop of a Right option."""
    return form.number if form.number is not None else stops(form)[1]


def stops(form):
    """Both stops of a form in canonical form: it equals a number only where it is one."""
    if form.number is not None:
        return form.number, form.number
    found = STOPS.get(form)
    if found is None:
        found = STOPS[form] = max(map(right_stop, form.lefts)), min(map(left_stop, form.rights))
    return found


def fits(x, lefts, rights):
    """Whether no Left option A has x <= A and no Right option B has B <= x."""
    x = number(x)
    return not any(at_most(x, a) for a in lefts) and not any(at_most(b, x) for b in rights)


def simplest(lefts, rights):
    """The simplest number that fits between the options, which are canonical, or None.

    A number less than a Right stop of a Left option doesn't fit, nor does one greater than a Left stop of a Right option,
    and the numbers between all of these fit. So only those stops and what lies between them are looked at: first the
    integers, by size, then halves, quarters and so on.
    """
    low = max(map(right_stop, lefts), default=None)
    high = min(map(left_stop, rights), default=None)
    if low is not None and high is not None and low > high:
        return None
    unit = 1
    while True:
        units = {0}
        if low is not None:
            units |= {ceil(low * unit), ceil(low * unit) + 1}
        if high is not None:
            units |= {floor(high * unit), floor(high * unit) - 1}
        for count in sorted(units, key=abs):
            x = Fraction(count, unit)
            if (low is None or low <= x) and (high is None or x <= high) and fits(x, lefts, rights):
                return x
        if low is not None and low == high and (low * unit).denominator == 1:
            return None
        unit *= 2


def canonical(lefts, rights):
    """The canonical form of the game with these options, which are canonical."""
    game = node(lefts, rights)
    found = CANONICAL.get(game)
    if found is None:
        found = CANONICAL[game] = reduced(game)
    return found


def reduced(game):
    """The simplest number that fits; else what is left when reversible options are bypassed and dominated ones removed."""
    x = simplest(game.lefts, game.rights)
    if x is not None:
        return number(x)
    lefts = {way for option in game.lefts for way in left_bypassed(option, game)}
    rights = {way for option in game.rights for way in right_bypassed(option, game)}
    return node(
        [a for a in lefts if not any(a is not b and at_most(a, b) for b in lefts)],
        [a for a in rights if not any(a is not b and at_most(b, a) for b in rights)],
    )


def left_bypassed(option, game):
    """The option; or, where some Right option B of it has B <= G, what so comes of all Left options of B."""
    for answer in right_options(option):
        if at_most(answer, game):
            return [way for after in left_options(answer) for way in left_bypassed(after, game)]
    return [option]


def right_bypassed(option, game):
    """The option; or, where some Left option B of it has G <= B, what so comes of all Right options of B."""
    for answer in left_options(option):
        if at_most(game, answer):
            return [way for after in right_options(answer) for way in right_bypassed(after, game)]
    return [option]


def plus(g, h):
    """The canonical form of G + H, both canonical. To a game that equals no number a number is added in its options."""
    if g.number is not None and h.number is not None:
        return number(g.number + h.number)
    found = SUMS.get((g, h))
    if found is None:
        lefts, rights = [], []
        if h.number is None:
            lefts += [plus(g, b) for b in h.lefts]
            rights += [plus(g, b) for b in h.rights]
        if g.number is None:
            lefts += [plus(a, h) for a in g.lefts]
            rights += [plus(a, h) for a in g.rights]
        found = SUMS[g, h] = SUMS[h, g] = canonical(lefts, rights)
    return found


def minus(g):
    """The canonical form of -G, which is canonical."""
    if g.number is not None:
        return number(-g.number)
    if g not in NEGATIVES:
        NEGATIVES[g] = canonical([minus(b) for b in g.rights], [minus(a) for a in g.lefts])
    return NEGATIVES[g]


def positions(form):
    """The distinct positions: those of the Left options, those of the Right options, the form; each where it comes first."""
    if form.number is not None:
        return (form,)
    found = POSITIONS.get(form)
    if found is None:
        inside = [one for option in form.lefts + form.rights for one in positions(option)]
        found = POSITIONS[form] = tuple(dict.fromkeys(inside)) + (form,)
    return found


def nimbers(count):
    """0, `*`, `*2` up to `*count`, one after another: `*k` has those before it as options on both sides."""
    for k in range(count + 1):
        if k == len(NIMBERS):
            NIMBERS.append(node(NIMBERS, NIMBERS) if k else number(0))
        yield NIMBERS[k]


def ups(count, star=False):
    """The positions of so many ups, of which there is at least one, with a star or without, the form itself last.

    `^` is {0|*} and `^*` is {0,*|0}; for n >= 2 n ups are {0|the n - 1 ups with a star}, and the same turned round.
    """
    zero = number(0)
    one = node([zero], [zero])
    yield zero
    yield one
    star = star == (count % 2 == 1)
    form = node([zero, one], [zero]) if star else node([zero], [one])
    yield form
    for _ in range(count - 1):
        form = node([zero], [form])
        yield form


def switch(x):
    """{x|-x}."""
    return canonical([number(x)], [number(-x)])


def tiny(x):
    """{0|{0|-x}}."""
    return canonical([number(0)], [canonical([number(0)], [number(-x)])])


def last(forms):
    """The last of some forms."""
    for form in forms:
        pass
    return form
