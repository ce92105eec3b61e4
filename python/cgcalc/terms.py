"""Terms: a game as texts that are added up and subtracted."""
from __future__ import annotations

from cgcalc.errors import WrongCall
from cgcalc.exact import whole_number
from cgcalc.expressions import NUMBER, SIGN, is_primary, outside_of_brackets

Term = tuple[bool, str]
"""Whether a text is subtracted, and the text, which may stand behind a sign as it is."""
Terms = tuple[Term, ...]
ZERO: Terms = ((False, "0"),)


def terms_of(text: str) -> Terms:
    """The one term that a text in the notation is.

    >>> terms_of("-3/4"), terms_of("1 + ^"), terms_of("{1 + ^|0}")
    (((True, '3/4'),), ((False, '(1 + ^)'),), ((False, '{1 + ^|0}'),))
    """
    number = NUMBER.fullmatch(text)
    if number:
        return ((bool(number[1]) and number[2] != "0", number[2]),)
    outside = outside_of_brackets(text)
    single = not SIGN.search(outside[2:] if outside.startswith("+-") else outside)
    return ((False, text if single else f"({text})"),)


def text_of_terms(terms: Terms) -> str:
    """The terms as one text in the notation.

    >>> text_of_terms(((True, "2.*"), (False, "^"))), text_of_terms(((False, "(1 + ^)"),))
    ('-(2.*) + ^', '1 + ^')
    """
    (minus, text), *others = terms
    if not minus and not others:
        return text[1:-1].strip() if text.startswith("(") and text.endswith(")") else text
    plain = NUMBER.fullmatch(text) or not text[:1].isdigit()
    first = text if not minus else f"-{text}" if plain else f"-({text})"
    return first + "".join(f" {'-' if minus else '+'} {text}" for minus, text in others)


def added(terms: Terms, others: Terms) -> Terms:
    """The sum of both; zeros are left out.

    >>> added(ZERO, ((False, "^"),)), added(ZERO, ZERO)
    (((False, '^'),), ((False, '0'),))
    """
    return tuple(term for term in terms + others if term[1] != "0") or ZERO


def negated(terms: Terms) -> Terms:
    """The negative of each."""
    return tuple((not minus, text) for minus, text in terms)


def multiplied(terms: Terms, count: object) -> Terms:
    """So many copies, added up.

    >>> multiplied(((False, "^"),), -3), multiplied(((False, "1"), (True, "*")), 2)
    (((True, '3.^'),), ((False, '2.(1 - *)'),))
    """
    whole = whole_number(count)
    if whole is None:
        raise WrongCall(f"a game is multiplied by a whole number, and {count!r} is none")
    minus, text = terms[0] if len(terms) == 1 else (False, f"({text_of_terms(terms)})")
    copies = f"{abs(whole)}.{text if is_primary(text) else f'({text})'}"
    return ((minus != (whole < 0), copies),)
