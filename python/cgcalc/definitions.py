"""Definitions: the names that questions use, and the games that they are bound to."""
from __future__ import annotations

import re
from dataclasses import dataclass, field
from typing import Iterable, Mapping, Optional, Sequence

from cgcalc.errors import WrongCall
from cgcalc.lines import BLANKS

NAME = re.compile(r"[a-uw-z][a-z0-9]{0,15}")
QUOTED = re.compile(r'"[^"]*"')
WORD = re.compile(r"[a-z][a-z0-9]*")
TEXT_OR_WORD = re.compile(r'"[^"]*"?|[A-Za-z][A-Za-z0-9]*')
DEFINITION = re.compile(rf"[{BLANKS}]*({NAME.pattern})[{BLANKS}]*:=[{BLANKS}]*(.*)", re.DOTALL)
BINDS_NOTHING = ("syntax", "name", "parts")
MOST_LETTERS = 65_536
"""How long a text may become where names are replaced by what they stand for."""


@dataclass(frozen=True)
class Definition:
    """A name, and the text of the game that it stands for.

    >>> Definition.read("g := {2|-1}")
    Definition(name='g', text='{2|-1}')
    >>> Definition.read("value {2|-1}") is None
    True
    """

    name: str
    text: str

    @property
    def line(self) -> str:
        """The line of a session that defines the name."""
        return f"{self.name} := {self.text}"

    @classmethod
    def read(cls, line: str) -> Optional[Definition]:
        """The definition that a line is, or None where it is none."""
        found = DEFINITION.fullmatch(line)
        return cls(*found.groups()) if found else None


@dataclass(frozen=True, eq=False)
class Bound:
    """A definition, with those that its text uses, and how many were made before it."""

    definition: Definition
    uses: Mapping[str, Bound]
    place: int


@dataclass(frozen=True)
class Names:
    """What some names stand for. It never changes: a further definition makes another.

    >>> names = Names().bind(Definition("a", "1")).bind(Definition("b", "a"))
    >>> names.bind(Definition("a", "2")).needed(["value b"])
    [Definition(name='a', text='1'), Definition(name='b', text='a')]
    """

    bound: Mapping[str, Bound] = field(default_factory=dict)

    def bind(self, definition: Definition) -> Names:
        """These names and one more, whose text uses these."""
        uses = self.used([definition.text]).bound
        place = 1 + max((bound.place for bound in self.bound.values()), default=0)
        return Names({**self.bound, definition.name: Bound(definition, uses, place)})

    def used(self, texts: Iterable[str]) -> Names:
        """The names that are words of texts."""
        if not self.bound:
            return self
        words = set().union(*map(words_in, texts))
        return Names({name: bound for name, bound in self.bound.items() if name in words})

    def needed(self, texts: Iterable[str]) -> list[Definition]:
        """The definitions that texts may use, themselves or by other definitions, in order."""
        return self.used(texts).definitions

    @property
    def definitions(self) -> list[Definition]:
        """The definitions that have to stand in a session for these names, in their order."""
        return [bound.definition for bound in _all_of(self.bound.values())]

    @property
    def are_in_order(self) -> bool:
        """Whether a session with the definitions in their order binds each name as it is here."""
        now: dict[str, Bound] = {}
        for bound in _all_of(self.bound.values()):
            if any(now.get(name) is not used for name, used in bound.uses.items()):
                return False
            now[bound.definition.name] = bound
        return all(now[name] is bound for name, bound in self.bound.items())

    def completed(self, others: Names) -> Names:
        """These names, and of the others those that stand for nothing yet."""
        more = {name: one for name, one in others.bound.items() if name not in self.bound}
        joined = self.joined(Names(more)) if more else self
        return self if joined is None else joined

    def joined(self, other: Names) -> Optional[Names]:
        """These names with others, or None where one stands for two games."""
        if not other.bound or other.bound == self.bound:
            return self
        if not self.bound:
            return other
        joined = Names({**self.bound, **other.bound})
        same = all(joined.bound[name] is bound for name, bound in self.bound.items())
        return joined if same and joined.are_in_order else None

    def written_out(self, text: str) -> str:
        """A text with what each of the names stands for in place of it.

        >>> Names().bind(Definition("a", "1 + ^")).written_out("2.a + Tiny(2)")
        '2.(1 + ^) + Tiny(2)'
        """
        written: dict[Bound, str] = {}
        for bound in _all_of(self.bound.values()):
            texts = {name: written[used] for name, used in bound.uses.items()}
            written[bound] = f"({_replaced(bound.definition.text, texts).strip(BLANKS)})"
        return _replaced(text, {name: written[bound] for name, bound in self.bound.items()})

    def __reduce__(self) -> tuple[object, ...]:
        return names_of, (self.definitions,)


def names_of(definitions: Iterable[Definition]) -> Names:
    """The names that definitions bind, one after the other."""
    names = Names()
    for definition in definitions:
        names = names.bind(definition)
    return names


Named = tuple[str, Names]
"""A text, and what the names in it stand for."""


def one_meaning(parts: Sequence[Named]) -> tuple[list[str], Names]:
    """Texts for one line, and what names stand for in all of them.

    Where a name stands for one game here and another there, each is written out.

    >>> old, new = Names().bind(Definition("a", "1")), Names().bind(Definition("a", "2"))
    >>> one_meaning([("a + ^", old), ("a", old)])[0], one_meaning([("a + ^", old), ("a", new)])
    (['a + ^', 'a'], (['(1) + ^', '(2)'], Names(bound={})))
    """
    joined: Optional[Names] = Names()
    for _, names in parts:
        joined = None if joined is None else joined.joined(names)
    if joined is not None:
        return [text for text, _ in parts], joined
    return [names.written_out(text) for text, names in parts], Names()


def _all_of(wanted: Iterable[Bound]) -> list[Bound]:
    """The definitions, and all that they use, in the order in which they were made."""
    found: dict[Bound, None] = {}
    left = list(wanted)
    while left:
        bound = left.pop()
        if bound not in found:
            found[bound] = None
            left.extend(bound.uses.values())
    return sorted(found, key=lambda bound: bound.place)


def _replaced(text: str, texts: Mapping[str, str]) -> str:
    """A text with others in place of some words; what stands in quotation marks stays."""

    def of(found: re.Match[str]) -> str:
        return texts.get(found[0], found[0])

    replaced = TEXT_OR_WORD.sub(of, text)
    if len(replaced) > MOST_LETTERS:
        raise WrongCall("a name stands for two games here: make one of them anew, by its value")
    return replaced


def words_in(text: str) -> set[str]:
    """The words of a text that may be names, each as long as a name can be.

    >>> sorted(words_in('value 2.g3 - {hall|Clobber("xo")}'))
    ['g3', 'hall', 'lobber', 'value']
    """
    outside = QUOTED.sub('""', text) if '"' in text else text
    return {word[:16] for word in WORD.findall(outside)}


def needed_lines(names: Names, lines: Sequence[str]) -> list[str]:
    """The lines of the definitions that lines may use."""
    return [definition.line for definition in names.needed(lines)] if names.bound else []
