"""Octal games: what a heap equals, by the least nimber that none of its options is."""
from . import forms, whole
from .boards import Fault
from .recognise import Grammar


def digit(reading, start):
    """A digit from 0 to 7."""
    if reading.text[start : start + 1] not in tuple("01234567"):
        return []
    reading.mark(start + 1)
    return [start + 1]


def more_digits(reading, start):
    """At most fifteen digits from 0 to 7: all ways."""
    ends = [start]
    while len(ends) <= 15 and digit(reading, ends[-1]):
        ends.append(ends[-1] + 1)
    return ends


CODE = Grammar('code = "0." digit more', {"digit": digit, "more": more_digits})


def read_octal(code, heap):
    """The digits of a code, by the number of tokens that they speak of, and nothing else."""
    nodes, passed = CODE.read("code", code)
    if nodes is None:
        raise Fault(f"octal {passed + 1}")
    if heap > 1000:
        raise Fault("heap 1")
    return [int(one) for one in code[2:]]


VALUES: dict = {}
WHOLE: dict = {}


def forget():
    """Forgets the values of all heaps."""
    VALUES.clear()
    WHOLE.clear()


def values(code, heap):
    """The numbers of the nimbers that the heaps from 0 up to this one equal.

    For m tokens that are taken, a digit with 1 allows to leave nothing, one with 2 one heap, and one with 4 two heaps, which
    together equal the nimber of the exclusive or of theirs. That of a small heap has to be what its whole tree reduces to by
    the definition.
    """
    digits = read_octal(code, heap)
    found = VALUES.setdefault(code, [])
    while len(found) <= heap:
        options = set()
        for taken, allowed in enumerate(digits, 1):
            rest = len(found) - taken
            if allowed & 1 and rest == 0:
                options.add(0)
            if allowed & 2 and rest > 0:
                options.add(found[rest])
            if allowed & 4:
                options |= {found[a] ^ found[rest - a] for a in range(1, rest // 2 + 1)}
        least = next(count for count in range(len(options) + 1) if count not in options)
        if len(found) <= whole.MOST_TOKENS:
            tree = whole.heaps_value(digits, (len(found),) if found else (), WHOLE.setdefault(code, {}))
            if tree is not forms.last(forms.nimbers(least)):
                raise whole.Differs(f"the least nimber of {len(found)} tokens of {code} and its whole tree")
        found.append(least)
    return found[: heap + 1]
