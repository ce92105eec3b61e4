"""The sessions of a seed: each seed has one kind of session, and the rare kinds take turns."""
import random

from .edges import (
    blanked, checked_names, crowded, deep, deep_nimbers, edge_words, full_sessions, hundreds, large_heaps, long_numbers,
    many_levels, nimbers_of_hundreds, odd_words, second_boards,
)
from .sessions import (
    boards, broken_lines, broken_positions, certificates, dealt, default_words, exact_expressions, exact_positions, far_numbers,
    long_proofs, many_parts, names, usual,
)

KINDS = (
    usual, boards, exact_positions, exact_positions, exact_expressions, broken_lines, broken_positions, names, None,
    exact_positions, certificates, edge_words, exact_expressions, odd_words, exact_positions, long_numbers, blanked,
    checked_names, hundreds, second_boards, None,
)
# These take long, or need not come often.
RARE = (
    crowded, deep, large_heaps, many_levels, default_words, dealt, many_parts, far_numbers, long_proofs, full_sessions, crowded,
    deep_nimbers, nimbers_of_hundreds, large_heaps,
)


def sessions_of(seed):
    """The sessions of a seed, each its words and its text."""
    turn, place = divmod(seed, len(KINDS))
    kind = KINDS[place] or RARE[(turn * KINDS.count(None) + KINDS[:place].count(None)) % len(RARE)]
    return kind(random.Random(seed))
