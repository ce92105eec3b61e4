"""What an expression makes, item by item, what that costs, and the first item that is refused.

Items come one by one, so that none behind a refused one is ever made. The maker of an expression's items ends with the form
that the expression equals.
"""
from fractions import Fraction
from typing import NamedTuple, Optional

from . import forms
from .expressions import Board, Braces, Multiple, Negative, Nimber, Number, Octal, Sum, Switch, Tiny, Ups
from .octal import values
from .play import position


class Item(NamedTuple):
    """A form with what it costs besides the form; without a form, a number out of range or a list that is too long."""

    form: Optional[forms.Form]
    extra: int = 0
    too_long: bool = False


class Refused(Exception):
    """An item is refused: its argument is the cause."""


OUT_OF_RANGE = Item(None)
TOO_LONG = Item(None, too_long=True)
IN_SUM, OF_BOARD = 1, 8


class Meter:
    """The share of a line, the positions limit, what was charged, and the length of the longest list."""

    def __init__(self, share, limit):
        self.share, self.limit, self.charged, self.longest = share, limit, 0, 0

    def value(self, expression):
        """The form of an expression whose items all pass, or Refused."""
        items = items_of(expression, self)
        while True:
            try:
                self.charge(next(items))
            except StopIteration as end:
                return end.value

    def charge(self, item):
        """Looks at an item, and refuses it for the first cause that fits."""
        if item.too_long:
            raise Refused("positions")
        if item.form is None or not in_range(item.form):
            raise Refused("range")
        if item.form.depth > 512:
            raise Refused("depth")
        self.charged += cost(item.form) + item.extra
        if self.charged > self.share:
            raise Refused("full")

    def fits(self, length):
        """Whether a list is within the positions limit."""
        self.longest = max(self.longest, length)
        return length <= self.limit


def in_range(form):
    """Whether a form is no number out of range."""
    x = form.number
    return x is None or (abs(x.numerator) < 1 << 64 and x.denominator <= 1 << 40)


def cost(form):
    """1 for a narrow number, 3 for a long one, and 1 plus the lengths of both lists for another form."""
    x = form.number
    if x is None:
        return 1 + len(form.lefts) + len(form.rights)
    return 1 if abs(x.numerator) < 1 << 52 and x.denominator <= 1 << 31 else 3


def literal(above, below):
    """The number of a literal, or None where its denominator is no power of two or it is out of range."""
    if below == 0 or below & (below - 1):
        return None
    x = Fraction(above, below)
    return x if in_range(forms.number(x)) else None


def items_of(expression, meter):
    """The items of an expression, in order; at the end its form."""
    return MAKERS[type(expression)](expression, meter)


def listed(made, length, meter, extra=0):
    """The items of a step's list of so many forms; at the end the last form."""
    if not meter.fits(length):
        yield TOO_LONG
    form = None
    for form in made:
        yield Item(form, extra)
    return form


def of_form(form, meter):
    """The positions of a form."""
    return (yield from listed(forms.positions(form), len(forms.positions(form)), meter))


def of_number(expression, _meter):
    """The number."""
    x = literal(expression.above, expression.below)
    if x is None:
        yield OUT_OF_RANGE
    form = forms.number(-x if expression.negative else x)
    yield Item(form)
    return form


def of_ups(expression, meter):
    """The positions of so many ups or downs, which are two more."""
    count = expression.times
    if count == 0:
        return (yield from of_form(forms.number(0), meter))
    made = forms.ups(count)
    return (yield from listed(map(forms.minus, made) if expression.down else made, count + 2, meter))


def of_nimber(expression, meter):
    """The positions of a nimber, which are one more than its number."""
    return (yield from listed(forms.nimbers(expression.times), expression.times + 1, meter))


def of_switch(expression, meter):
    """The positions of {x|-x}."""
    x = literal(expression.above, expression.below)
    if x is None:
        yield OUT_OF_RANGE
    return (yield from of_form(forms.switch(x), meter))


def of_tiny(expression, meter):
    """The positions of {0|{0|-x}}, or of its negative."""
    x = literal(expression.above, expression.below)
    if x is None:
        yield OUT_OF_RANGE
    form = forms.tiny(x)
    return (yield from of_form(forms.minus(form) if expression.miny else form, meter))


def of_braces(expression, meter):
    """The items of the Left options, those of the Right options, and the form of the whole."""
    sides = []
    for side in expression:
        made = []
        for one in side:
            made.append((yield from items_of(one, meter)))
        sides.append(made)
    form = forms.canonical(*sides)
    yield Item(form)
    return form


def negatives(form, meter):
    """The negatives of the positions of a form; at the end its own."""
    inside = forms.positions(form)
    return (yield from listed(map(forms.minus, inside), len(inside), meter))


def sums(g, h, meter):
    """The sums of each position of G, in the outer loop, and each of H; at the end G + H."""
    outer, inner = forms.positions(g), forms.positions(h)
    return (yield from listed((forms.plus(a, b) for a in outer for b in inner), len(outer) * len(inner), meter, IN_SUM))


def of_negative(expression, meter):
    """The items of the expression, and the negatives of the positions of its form."""
    form = yield from items_of(expression.inner, meter)
    return (yield from negatives(form, meter))


def of_multiple(expression, meter):
    """The items of the expression; then 0 for no copy, nothing for one, and else a list of sums for each further copy."""
    form = yield from items_of(expression.inner, meter)
    if expression.times == 0:
        yield Item(forms.number(0))
        return forms.number(0)
    so_far, copies = form, 1
    while copies < expression.times:
        so_far = yield from sums(so_far, form, meter)
        copies += 1
    return so_far


def of_sum(expression, meter):
    """The items of the first term; then for each further one its own, its negatives where it is subtracted, and the sums."""
    so_far = None
    for minus, term in expression.terms:
        form = yield from items_of(term, meter)
        if minus:
            form = yield from negatives(form, meter)
        so_far = form if so_far is None else (yield from sums(so_far, form, meter))
    return so_far


def of_octal(expression, meter):
    """The positions of the nimber that the heap equals; the list counts one more than the heap."""
    nimber = values(expression.code, expression.heap)[-1]
    return (yield from listed(forms.nimbers(nimber), expression.heap + 1, meter))


def of_board(expression, meter):
    """The items of a position, whole or in pieces."""
    play, board = position(expression)
    cuts = play.rules.cuts
    reached = play.listing(board, meter.limit)
    if reached is None or not meter.fits(len(reached)):
        yield TOO_LONG
    yield from (in_pieces if cuts else whole)(play, reached, meter)
    if cuts:
        yield from joining(play, board, meter)
    return play.value(board)


def whole(play, reached, _meter):
    """The values of all positions that play can come to."""
    for one in reached:
        yield Item(play.value(one), OF_BOARD)


def in_pieces(play, reached, meter):
    """For each piece that play can come to: what joins the pieces after each of Left's moves, what does so after each of
    Right's, and its value."""
    for piece in reached:
        for side in play.moves(piece):
            for after in side:
                yield from joining(play, after, meter)
        yield Item(play.value(piece), OF_BOARD)


def joining(play, board, meter):
    """0 for no piece, nothing for one, and else a list of sums for each further piece."""
    pieces = play.pieces(board)
    if not pieces:
        yield Item(forms.number(0))
        return
    so_far = play.value(pieces[0])
    for piece in pieces[1:]:
        so_far = yield from sums(so_far, play.value(piece), meter)


MAKERS = {
    Number: of_number, Ups: of_ups, Nimber: of_nimber, Switch: of_switch, Tiny: of_tiny, Braces: of_braces, Negative: of_negative,
    Multiple: of_multiple, Sum: of_sum, Octal: of_octal, Board: of_board,
}
