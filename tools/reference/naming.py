"""The names of forms in canonical form."""
from .forms import last, minus, nimbers, number, plus, stops, ups


def name(form):
    """The first of the six kinds of names that fits."""
    if form.number is not None:
        return str(form.number)
    return near_number(form) or switch_or_tiny(form) or braces(form)


def near_number(form):
    """x + `*k`, x + so many ups, or x + so many ups and a star; then both stops are x."""
    x, other = stops(form)
    if x != other:
        return None
    rest = plus(form, number(-x)) if x else form
    text = "" if x == 0 else str(x)
    if rest.lefts == rest.rights and rest is last(nimbers(len(rest.lefts))):
        return text + "*" + counted(len(rest.lefts))
    count = max(rest.depth - 1, 1)
    for sign, arrow in ((lambda g: g, "^"), (minus, "v")):
        for star in (False, True):
            if sign(last(ups(count, star))) is rest:
                return text + (arrow * count if count <= 2 else arrow + str(count)) + ("*" if star else "")
    return None


def counted(count):
    """Nothing for 1, else the number."""
    return "" if count == 1 else str(count)


def switch_or_tiny(form):
    """{x|-x}, {0|{0|-x}} or {{x|0}|0} with x > 0."""
    if len(form.lefts) != 1 or len(form.rights) != 1:
        return None
    zero = number(0)
    (left,), (right,) = form.lefts, form.rights
    if left.number is not None and left.number > 0 and right is number(-left.number):
        return "+-" + str(left.number)
    if left is zero and right.number is None:
        x = half_of_tiny(minus(right))
        return x and f"Tiny({x})"
    if right is zero and left.number is None:
        x = half_of_tiny(left)
        return x and f"Miny({x})"
    return None


def half_of_tiny(form):
    """The text of x > 0 where the form is {x|0}."""
    if len(form.lefts) == 1 and form.rights == (number(0),) and form.lefts[0].number is not None:
        x = form.lefts[0].number
        return str(x) if x > 0 else None
    return None


def braces(form):
    """The names of the Left options and of the Right options, with commas, a bar and braces."""
    return "{" + ",".join(map(name, form.lefts)) + "|" + ",".join(map(name, form.rights)) + "}"
