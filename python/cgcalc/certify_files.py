"""The text of a certificate as a file for Coq."""
from __future__ import annotations

from typing import Iterable, Sequence

from cgcalc.certify_expressions import Expression, Nimber, Number, Position, coq_text
from cgcalc.certify_positions import Piece
from cgcalc.certify_questions import Answered, Certificate
from cgcalc.certify_tables import Facts, Row, Terms
from cgcalc.replies import Order, Outcome, Proof
from cgcalc.values import Value

WINNERS = {"L": "Left", "R": "Right", "P": "Previous", "N": "Next"}
WORDS = {
    "==": "Is_equal",
    "<": "Is_less",
    "∥": "Is_confused",
    "<=": "Is_at_most",
    "≰": "Is_not_at_most",
}
SIGNS = {"=": "==", "<": "<", ">": "<", "||": "∥"}
ALPHABETS = {"Clobber": "xo.", "Toads": "TF."}
FUEL = 20_000

HEAD = """\
(* Written by cg-certify; coqc checks it (docs/CERTIFY.md). The theorems at the end are what is
   proved. The tables before them need not be believed: if a row is wrong, [checked] fails, and
     Eval vm_compute in first_fault {fuel} certificate questions.
   tells the first bad row. *)
From Coq Require Import List NArith PArith String.
From CG Require Import Games Boards Values Positions Certificate Certified Data.
Import ListNotations.
Open Scope string_scope.
Open Scope positive_scope.
"""
CHECKED = """
Lemma checked : first_fault {fuel} certificate questions = None.
Proof. vm_cast_no_check (@eq_refl (option fault) None). Qed.

Open Scope games_scope.
"""


def file_text(certificate: Certificate) -> str:
    """The file."""
    parts = [HEAD.format(fuel=FUEL), table_text(certificate), questions_text(certificate)]
    parts.append(CHECKED.format(fuel=FUEL))
    for number, answered in enumerate(certificate.answers):
        parts.append(theorem_text(number, answered))
    names = ", ".join(f"answer_{number + 1}" for number in range(len(certificate.answers)))
    parts.append(f"\nDefinition all_answers := ({names}).\nPrint Assumptions all_answers.\n")
    return "".join(parts)


def comment_of(question: str) -> str:
    """A question as a comment, in which no sign begins or ends one."""
    return question.replace("(*", "( *").replace("*)", "* )").replace('"', "'")


def theorem_text(number: int, answered: Answered) -> str:
    """The theorem of an answer."""
    return (
        f"\n(* {comment_of(answered.question.text)} *)\n"
        f"Theorem answer_{number + 1} :\n  {statement_of(answered)}.\n"
        f"Proof. exact (answer _ _ _ checked {number}). Qed.\n"
    )


def relation_of(answered: Answered) -> tuple[str, str, str]:
    """The two expressions of an answer on the order, with the sign between them."""
    first, second = map(bracketed, answered.question.expressions)
    reply = answered.reply
    if isinstance(reply, Order):
        sign = SIGNS[reply.sign]
        return (second, sign, first) if reply.sign == ">" else (first, sign, second)
    holds = isinstance(reply, Proof) and reply.holds
    return second, "<=" if holds else "≰", first


def bracketed(expression: Expression) -> str:
    """An expression in the brackets of the theory's notation."""
    return f"<{{ {coq_text(expression)} }}>"


def statement_of(answered: Answered) -> str:
    """What the theorem of an answer says."""
    whole = bracketed(answered.question.expressions[0])
    if isinstance(answered.reply, Value):
        name = bracketed(answered.name)
        return f"{whole} == {name} /\\ is_canonical {name}"
    if isinstance(answered.reply, Outcome):
        return f"has_outcome {whole} {WINNERS[answered.reply.winner]}"
    return " ".join(relation_of(answered))


def questions_text(certificate: Certificate) -> str:
    """The questions as data."""
    rows = []
    for answered in certificate.answers:
        whole = bracketed(answered.question.expressions[0])
        if isinstance(answered.reply, Value):
            index = certificate.facts.values.index[answered.reply.name]
            rows.append(f"Has_value {whole} {bracketed(answered.name)} {index}")
        elif isinstance(answered.reply, Outcome):
            rows.append(f"Has_outcome {whole} {WINNERS[answered.reply.winner]}")
        else:
            first, sign, second = relation_of(answered)
            rows.append(f"Compares {first} {WORDS[sign]} {second}")
    return f"\nDefinition questions : list inquiry := {listing(rows)}.\n"


def table_text(certificate: Certificate) -> str:
    """The tables, each a definition, and the certificate of them all."""
    facts = certificate.facts
    tables = {
        "value_rows": listing(row_text(row) for row in facts.values.rows),
        "negative_rows": listing(f"({i}, {j})" for i, j in facts.negatives.items()),
        "literal_rows": listing(f"({literal_text(a)}, {i})" for a, i in facts.literals.items()),
        "sum_rows": listing(f"({terms_text(terms)}, {i})" for terms, i in facts.sums.items()),
        "brace_rows": listing(braces_text(facts)),
        "domineering_rows": pieces_text(certificate.pieces),
        "clobber_rows": clobber_text(certificate.boards),
        "toads_rows": rows_text("Toads", ALPHABETS["Toads"], certificate.boards),
        "strip_rows": strips_text(certificate.boards),
    }
    fields = ";\n  ".join(f"{name} := {text}" for name, text in tables.items())
    return f"\nDefinition certificate : certificate := {{|\n  {fields} |}}.\n"


def listing(rows: Iterable[str]) -> str:
    """A list in Coq, an entry a line."""
    return "[" + ";\n    ".join(rows) + "]"


def terms_text(terms: Sequence[int]) -> str:
    """A list of indexes."""
    return "[" + ";".join(map(str, terms)) + "]"


def row_text(row: Row) -> str:
    """The options of a value."""
    return f"({terms_text(row[0])}, {terms_text(row[1])})"


def literal_text(literal: Expression) -> str:
    """A number or nimber as a position."""
    if isinstance(literal, Number):
        return f"Is_number {literal.value.numerator} {literal.value.denominator}"
    if isinstance(literal, Nimber):
        return f"Is_nimber {literal.size}"
    raise TypeError(literal)


def braces_text(facts: Facts) -> Iterable[str]:
    """The rows of braces."""
    for (lefts, rights), index in facts.braces.items():
        yield f"(({side_text(lefts)}, {side_text(rights)}), {index})"


def side_text(side: Sequence[Terms]) -> str:
    """The sums of a side of a brace."""
    return "[" + ";".join(map(terms_text, side)) + "]"


def pieces_text(pieces: dict[Piece, int]) -> str:
    """The pieces of Domineering as numerals: bit `width * row + column` of each of their cells."""
    if not pieces:
        return "[]"
    width = max(column for piece in pieces for _, column in piece) + 1
    rows = []
    for piece, index in pieces.items():
        places = [row * width + column for row, column in piece]
        numeral = sum(1 << place for place in places) | 1 << (max(places) + 1)
        rows.append(f"({hex(numeral)}, {index})")
    return f"map (dominoes_of {width}) {listing(rows)}"


def numeral_of(alphabet: str, symbols: str) -> str:
    """A row of symbols as a numeral, of which a digit is a symbol's place in the alphabet.

    >>> numeral_of("TF.", "T.F")
    '0x1120'
    """
    return "0x1" + "".join(f"{alphabet.index(symbol):x}" for symbol in reversed(symbols))


def rows_text(game: str, alphabet: str, boards: dict[Position, int], rules: str = "") -> str:
    """The positions of a game on one row."""
    rows = [
        f"({numeral_of(alphabet, position.texts[-1])}, {index})"
        for position, index in boards.items()
        if position.game == game and rules in ("", position.texts[0])
    ]
    return f'map (row_of "{alphabet}") {listing(rows)}' if rows else "[]"


def strips_text(boards: dict[Position, int]) -> str:
    """The positions of games on strips, by their rules."""
    rules = dict.fromkeys(position.texts[0] for position in boards if position.game == "Strip")
    tables = []
    for text in rules:
        alphabet = "".join(part[0] for part in text.split(";") if part[1:2] == "=")
        tables.append(f'("{text}"%string, {rows_text("Strip", alphabet, boards, text)})')
    return listing(tables)


def clobber_text(boards: dict[Position, int]) -> str:
    """The positions of Clobber, by the width of their boards."""
    by_width: dict[int, list[str]] = {}
    for position, index in boards.items():
        if position.game == "Clobber":
            rows = position.texts[0].split("|")
            numeral = numeral_of(ALPHABETS["Clobber"], "".join(rows))
            by_width.setdefault(len(rows[0]), []).append(f"({numeral}, {index})")
    tables = [
        f'map (board_of "{ALPHABETS["Clobber"]}" {width}%nat) {listing(rows)}'
        for width, rows in by_width.items()
    ]
    return " ++ ".join(tables) or "[]"
