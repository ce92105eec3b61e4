"""Reading a text by a grammar, by trying all ways.

A grammar is written as in docs/LANGUAGE.md: productions `name = ...` with words in quotes, `|` between alternatives,
brackets round what may be left out and braces round what may be repeated. Names without a production are tokens, given as
functions. Each part of the grammar becomes a function that tells *all* places at which it may end, so no choice is made too
early. Along the way the greatest number of bytes is kept that any way has passed: it is the length of the longest prefix of
the text that begins some text of the grammar, since every way that has come so far can be brought to an end.
"""
import re
from typing import NamedTuple


class Node(NamedTuple):
    """A production that was read: its name, its text from `start` up to `end`, and the productions inside it."""

    name: str
    start: int
    end: int
    inside: tuple


class Reading:
    """A text that is being read: the bytes that some way has passed, and what was found so far."""

    def __init__(self, text):
        self.text = text
        self.passed = 0
        self.found = {}

    def take(self, start, word):
        """The ends of a word that stands byte for byte."""
        if not self.text.startswith(word[0], start):
            return []
        passed = len(word)
        while not self.text.startswith(word[:passed], start):
            passed -= 1
        self.mark(start + passed)
        return [start + passed] if passed == len(word) else []

    def mark(self, at):
        """Tells that the text before the place `at` begins some text of the grammar."""
        if at > self.passed:
            self.passed = at


def word(text):
    """The reader of a word."""

    def read(reading, start, _opened):
        return [(end, ()) for end in reading.take(start, text)]

    return read


def token(ends_of):
    """The reader of a token, which is a function from the reading and the start to the ends."""

    def read(reading, start, _opened):
        return [(end, ()) for end in ends_of(reading, start)]

    return read


def sequence(readers):
    """One part behind the other."""
    if len(readers) == 1:
        return readers[0]

    def read(reading, start, opened):
        ways = [(start, ())]
        for reader in readers:
            ways = [(end, before + inside) for at, before in ways for end, inside in reader(reading, at, opened)]
            if not ways:
                break
        return ways

    return read


def alternatives(readers):
    """Any of several parts."""
    if len(readers) == 1:
        return readers[0]

    def read(reading, start, opened):
        return [way for reader in readers for way in reader(reading, start, opened)]

    return read


def optional(reader):
    """A part that may be left out."""

    def read(reading, start, opened):
        return [(start, ())] + reader(reading, start, opened)

    return read


def repeated(reader):
    """A part as often as it comes, also not at all."""

    def read(reading, start, opened):
        ways = newest = [(start, ())]
        while newest:
            newest = [(end, before + inside) for at, before in newest for end, inside in reader(reading, at, opened) if end > at]
            ways = ways + newest
        return ways

    return read


class Grammar:
    """The readers of all productions of a grammar.

    `tokens` has the functions of the names without a production. The productions in `hidden` leave no node but those inside
    them. Those in `brackets` open a bracket, of which at most `most` may be open at once.
    """

    def __init__(self, productions, tokens, hidden=(), brackets=(), most=64):
        self.hidden, self.brackets, self.most = set(hidden), set(brackets), most
        self.readers = {name: token(ends_of) for name, ends_of in tokens.items()}
        for production in re.split(r"\n(?=\w+ *=)", productions.strip()):
            name, _, text = production.partition("=")
            self.define(name.strip(), Notation(self, text).alternatives())

    def define(self, name, body):
        """Makes the body the reader of the production, which looks at each place once."""
        opens, hidden = name in self.brackets, name in self.hidden

        def read(reading, start, opened):
            opened += opens
            if opened > self.most:
                return []
            key = (name, start, opened)
            ways = reading.found.get(key)
            if ways is None:
                ways = body(reading, start, opened)
                if not hidden:
                    ways = [(end, (Node(name, start, end, inside),)) for end, inside in ways]
                reading.found[key] = ways
            return ways

        self.readers[name] = read

    def read(self, name, text):
        """The nodes of the whole text by the production, or None, and how many of its bytes begin some text of it."""
        reading = Reading(text)
        whole = [inside for end, inside in self.readers[name](reading, 0, 0) if end == len(text)]
        if len(whole) > 1:
            raise AssertionError(f"two ways to read {text!r}")
        return (whole[0] if whole else None), reading.passed


class Notation:
    """The right side of a production, taken apart."""

    def __init__(self, grammar, text):
        self.grammar = grammar
        self.parts = re.findall(r'"[^"]*"|\w+|[|()\[\]{}]', text)
        self.at = 0

    def next(self):
        """The next part, or None at the end."""
        return self.parts[self.at] if self.at < len(self.parts) else None

    def alternatives(self):
        """What stands between bars."""
        readers = [self.sequence()]
        while self.next() == "|":
            self.at += 1
            readers.append(self.sequence())
        return alternatives(readers)

    def sequence(self):
        """What stands side by side."""
        readers = []
        while self.next() not in (None, "|", ")", "]", "}"):
            readers.append(self.one())
        return sequence(readers)

    def one(self):
        """One word, name or bracket."""
        part = self.next()
        self.at += 1
        if part[0] == '"':
            return word(part[1:-1])
        if part in ("(", "[", "{"):
            inside = self.alternatives()
            self.at += 1
            return {"(": lambda x: x, "[": optional, "{": repeated}[part](inside)
        readers = self.grammar.readers
        return lambda reading, start, opened: readers[part](reading, start, opened)
