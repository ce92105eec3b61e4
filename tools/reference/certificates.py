"""Proofs of the order of two forms in canonical form, as texts.

A pair is two forms, G and H, of which a proof shows G >= H. Right moves in G or, to a Left option, in H; Left answers with a
Left option of the first game of the pair, written `g` and its place, or with a Right option of the second, written `h`.
"""
from .forms import at_most, left_options, right_options

MOST = 65536


class Long(Exception):
    """A proof has more bytes than an answer may have."""


def both_numbers(g, h):
    """Whether both games of a pair are numbers."""
    return g.number is not None and h.number is not None


def moves(g, h):
    """The pairs that Right's moves lead to."""
    return [(b, h) for b in right_options(g)] + [(g, a) for a in left_options(h)]


def answers(g, h):
    """Left's answers in a pair, each with its text and the pair that it leads to."""
    found = [(f"g{place}", (a, h)) for place, a in enumerate(left_options(g))]
    return found + [(f"h{place}", (g, b)) for place, b in enumerate(right_options(h))]


def first_proof(g, h, known):
    """The proof of a pair with G >= H in which each answer is the first that leads to such a pair again; `known` has those
    that were made for other pairs."""
    if both_numbers(g, h):
        return "."
    if (g, h) not in known:
        proof = "("
        for pair in moves(g, h):
            text, after = next((text, after) for text, after in answers(*pair) if at_most(after[1], after[0]))
            proof += text + first_proof(*after, known)
            if len(proof) > MOST:
                raise Long
        known[g, h] = proof + ")"
    return known[g, h]


def prove(g, h):
    """The answer to the question whether G >= H; Long where it is too long."""
    answer, proof = decided(g, h)
    if len(proof) > MOST:
        raise Long
    return answer + " " + proof


def decided(g, h):
    """Yes or no, and its proof: that of the pair; nothing but a point for two numbers; or Right's first winning move and the
    proof that it wins."""
    if at_most(h, g):
        return "yes", first_proof(g, h, {})
    if both_numbers(g, h):
        return "no", "."
    for place, b in enumerate(right_options(g)):
        if at_most(b, h):
            return "no", f"r{place}" + first_proof(h, b, {})
    for place, a in enumerate(left_options(h)):
        if at_most(g, a):
            return "no", f"l{place}" + first_proof(a, g, {})
    raise AssertionError("neither at least nor refuted")


def check(g, h, text):
    """Whether the text is a proof of the pair."""
    return len(text) in ends(g, h, text, 0)


def ends(g, h, text, start):
    """Where a proof of the pair may end that begins at the place: all ways."""
    if both_numbers(g, h):
        return {start + 1} if text.startswith(".", start) and at_most(h, g) else set()
    if not text.startswith("(", start):
        return set()
    found = {start + 1}
    for pair in moves(g, h):
        found = {
            end
            for place in found
            for answer, after in answers(*pair)
            if text.startswith(answer, place)
            for end in ends(*after, text, place + len(answer))
        }
    return {end + 1 for end in found if text.startswith(")", end)}
