"""The tables of a certificate: values by index; what sums, negatives and braces come to."""
from __future__ import annotations

from dataclasses import dataclass, field
from fractions import Fraction
from typing import Callable, Iterable

from cgcalc.certify_expressions import (
    Brace,
    Expression,
    Multiple,
    Negative,
    Nimber,
    Number,
    Plus,
    Position,
    language_text,
    miny_of,
    plain_of,
    switch_of,
    tiny_of,
)
from cgcalc.errors import WrongCall
from cgcalc.names import SWITCH, TINY, options_of, read_plain

MOST_VALUES = 2_000
Terms = tuple[int, ...]
Row = tuple[Terms, Terms]


class ValueTable:
    """Values by index. The value 0 has index 1, and the options of each stand before it."""

    def __init__(self) -> None:
        self.index: dict[str, int] = {"0": 1}
        self.rows: list[Row] = []

    def place(self, name: str) -> int:
        """The index of a value, which is entered with all its positions.

        >>> table = ValueTable()
        >>> table.place("^"), table.rows
        (3, [((1,), (1,)), ((1,), (2,))])
        """
        waiting = [name]
        while waiting:
            last = waiting[-1]
            if last in self.index:
                waiting.pop()
                continue
            lefts, rights = options_of(last)
            missing = [option for option in (*lefts, *rights) if option not in self.index]
            if missing:
                waiting += missing
                continue
            self.rows.append((self.indexes(lefts), self.indexes(rights)))
            self.index[last] = len(self.rows) + 1
            if len(self.rows) > MOST_VALUES:
                raise WrongCall(
                    f"the questions need more than {MOST_VALUES} values: certify fewer at a time"
                )
        return self.index[name]

    def indexes(self, names: Iterable[str]) -> Terms:
        """The indexes of values that are entered."""
        return tuple(self.index[name] for name in names)


@dataclass
class Facts:
    """The rows of a certificate but for those of positions, in the order of their check."""

    values: ValueTable = field(default_factory=ValueTable)
    negatives: dict[int, int] = field(default_factory=dict)
    literals: dict[Expression, int] = field(default_factory=dict)
    sums: dict[Terms, int] = field(default_factory=dict)
    braces: dict[tuple[tuple[Terms, ...], tuple[Terms, ...]], int] = field(default_factory=dict)


def terms_of(index: int) -> Terms:
    """The sum of one value, which is empty for 0."""
    return () if index == 1 else (index,)


def expression_of_name(name: str) -> Expression:
    """What the name of a value writes.

    >>> language_text(expression_of_name("{2^|-1/2}"))
    '{2 + {0|*}|-(1/2)}'
    """
    switch, tiny, plain = SWITCH.fullmatch(name), TINY.fullmatch(name), read_plain(name)
    if switch:
        return switch_of(Fraction(switch[1]))
    if tiny:
        return (tiny_of if tiny[1] == "Tiny" else miny_of)(Fraction(tiny[2]))
    if plain:
        return plain_of(plain)
    lefts, rights = options_of(name)
    return Brace(tuple(map(expression_of_name, lefts)), tuple(map(expression_of_name, rights)))


def parts_of(expression: Expression) -> list[Expression]:
    """The expressions whose values a certificate needs, inner ones first."""
    if isinstance(expression, Brace):
        options = (*expression.lefts, *expression.rights)
        inner = [part for option in options for part in parts_of(option)]
    elif isinstance(expression, Negative):
        inner = parts_of(expression.of)
    elif isinstance(expression, Plus):
        inner = parts_of(expression.first) + parts_of(expression.second)
    elif isinstance(expression, Multiple):
        inner = parts_of(expression.of)
        inner += [Multiple(count, expression.of) for count in range(2, expression.count)]
    else:
        inner = []
    return [*inner, expression]


class Evaluator:
    """Follows the evaluation in formal/Certificate.v, and notes the rows that it needs."""

    def __init__(self, facts: Facts, value: Callable[[Expression], str]) -> None:
        self.facts = facts
        self.value = value
        self.positions: dict[Position, Terms] = {}

    def index_of(self, expression: Expression) -> int:
        """The index of the value of an expression."""
        return self.facts.values.place(self.value(expression))

    def terms(self, expression: Expression) -> Terms:
        """The formal sum to which an expression is evaluated."""
        if isinstance(expression, (Number, Nimber)):
            return terms_of(self.literal(expression))
        if isinstance(expression, Brace):
            lefts = tuple(map(self.terms, expression.lefts))
            rights = tuple(map(self.terms, expression.rights))
            index = self.index_of(expression)
            return terms_of(self.facts.braces.setdefault((lefts, rights), index))
        if isinstance(expression, Negative):
            return self.negated(self.terms(expression.of))
        if isinstance(expression, Plus):
            both = self.terms(expression.first) + self.terms(expression.second)
            return self.shortened(both, expression)
        if isinstance(expression, Multiple):
            return self.copies(expression)
        return self.shortened(self.positions[expression], expression)

    def negated(self, terms: Terms) -> Terms:
        """The negatives of the terms of a sum."""
        found: Terms = ()
        names = {index: name for name, index in self.facts.values.index.items()}
        for index in terms:
            if index not in self.facts.negatives:
                negative = self.value(Negative(expression_of_name(names[index])))
                self.facts.negatives[index] = self.facts.values.place(negative)
            found += terms_of(self.facts.negatives[index])
        return found

    def shortened(self, terms: Terms, whole: Expression) -> Terms:
        """A sum as one term, the value of the whole."""
        if len(terms) < 2:
            return terms
        if terms not in self.facts.sums:
            self.facts.sums[terms] = self.index_of(whole)
        return terms_of(self.facts.sums[terms])

    def copies(self, multiple: Multiple) -> Terms:
        """So many copies, added one by one."""
        one = self.terms(multiple.of)
        all_copies: Terms = ()
        for count in range(1, multiple.count + 1):
            whole = multiple.of if count == 1 else Multiple(count, multiple.of)
            all_copies = self.shortened(one + all_copies, whole)
        return all_copies

    def enter_name(self, name: Expression) -> None:
        """Evaluates what of a name is no brace, since a brace is compared with the table itself."""
        if isinstance(name, Brace):
            for option in (*name.lefts, *name.rights):
                self.enter_name(option)
        else:
            self.terms(name)

    def literal(self, literal: Expression) -> int:
        """The index of a number or nimber, which is noted after its options."""
        waiting = [literal]
        while waiting:
            last = waiting[-1]
            options = options_of_literal(last)
            missing = [option for option in options if option not in self.facts.literals]
            waiting += missing
            if not missing:
                waiting.pop()
                index = self.facts.values.place(name_of_literal(last))
                self.facts.literals.setdefault(last, index)
        return self.facts.literals[literal]


def name_of_literal(literal: Expression) -> str:
    """The name of a number or nimber."""
    if isinstance(literal, Nimber) and literal.size == 0:
        return "0"
    return language_text(literal)


def options_of_literal(literal: Expression) -> list[Expression]:
    """The options of a number, or of a nimber, as formal/Positions.v has them."""
    if isinstance(literal, Nimber):
        return [Nimber(size) for size in range(literal.size)]
    if not isinstance(literal, Number):
        raise TypeError(literal)
    value = literal.value
    if value.denominator == 1:
        return [Number(value - 1)] if value else []
    step = Fraction(1, value.denominator)
    return [Number(value - step), Number(value + step)]
