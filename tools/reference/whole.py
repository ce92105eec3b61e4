"""Small positions once more, by the definition alone: the whole tree of their moves, in which reversible options are bypassed and
dominated ones removed until there are none.

Nothing here cuts boards into pieces, adds values, looks for a number between stops, or knows nimbers.
"""
from fractions import Fraction

from .forms import at_most, left_options, node, number, right_options

MOST_CELLS, MOST_TOKENS = 8, 12


class Differs(Exception):
    """A small position's value isn't what its whole tree reduces to."""


def small(board):
    """Whether a board is small enough for its whole tree."""
    return len(board) * len(board[0]) <= MOST_CELLS


def value(rules, board, known):
    """The canonical form of a board by some rules; `known` has those of the boards that were met before."""
    if board not in known:
        sides = [[value(rules, after, known) for after in rules.moves(board, left)] for left in (True, False)]
        known[board] = canonical(*sides)
    return known[board]


def heap_moves(digits, heap):
    """What a heap becomes by one move, as heaps: a digit with 1 allows to take the whole heap, one with 2 to leave one heap,
    and one with 4 to leave two."""
    for taken, allowed in enumerate(digits, 1):
        rest = heap - taken
        if allowed & 1 and rest == 0:
            yield ()
        if allowed & 2 and rest > 0:
            yield (rest,)
        if allowed & 4:
            yield from ((first, rest - first) for first in range(1, rest))


def heaps_value(digits, heaps, known):
    """The canonical form of several heaps, in each of which a player may move; both have the same moves."""
    if heaps not in known:
        options = []
        for at, heap in enumerate(heaps):
            for after in heap_moves(digits, heap):
                rest = tuple(sorted(heaps[:at] + heaps[at + 1 :] + after))
                options.append(heaps_value(digits, rest, known))
        known[heaps] = canonical(options, options)
    return known[heaps]


def canonical(lefts, rights):
    """The canonical form of the game with these options, which are canonical: one option after the other is bypassed or
    removed, and what is left is a number where it has just the options of one."""
    game = node(lefts, rights)
    after = step(game)
    while after:
        game = node(*after)
        after = step(game)
    return as_number(game) or game


def step(game):
    """The options once one more is bypassed or removed, or None.

    A Left option A is reversible where some Right option B of A has B <= G; the Left options of B stand for it then. It is
    dominated where another Left option is at least A. So it is for Right, turned round.
    """
    for a in game.lefts:
        others = [one for one in game.lefts if one is not a]
        for b in right_options(a):
            if at_most(b, game):
                return [*others, *left_options(b)], game.rights
        if any(at_most(a, one) for one in others):
            return others, game.rights
    for b in game.rights:
        others = [one for one in game.rights if one is not b]
        for a in left_options(b):
            if at_most(game, a):
                return game.lefts, [*others, *right_options(a)]
        if any(at_most(one, b) for one in others):
            return game.lefts, others
    return None


def as_number(game):
    """The number whose canonical form has just these options, or None."""
    options = game.lefts + game.rights
    if len(game.lefts) > 1 or len(game.rights) > 1 or any(one.number is None for one in options):
        return None
    if len(options) == 2:
        x = Fraction(options[0].number + options[1].number) / 2
    elif options:
        x = options[0].number + (1 if game.lefts else -1)
    else:
        x = Fraction(0)
    form = number(x)
    return form if (left_options(form), right_options(form)) == (game.lefts, game.rights) else None
