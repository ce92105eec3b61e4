"""Moves of a game of one's own on a row, whose rules are a text."""
from __future__ import annotations

import re
from dataclasses import dataclass

from cgcalc.moves.move import NoPosition

WEIGHT = re.compile(r"([A-Za-z.])=([0-9]{1,3}),([0-9]{1,3}),([0-9]{1,3})")
RULE = re.compile(r"([LR]):([A-Za-z.]+)>([A-Za-z.]+)")
MOST_SYMBOLS = 16
MOST_RULES = 32
MOST_CELLS = 64

Weights = dict[str, tuple[int, int, int]]


@dataclass(frozen=True)
class Rule:
    """A rule: whose it is, the symbols that have to stand there, and those that replace them."""

    player: str
    pattern: str
    replacement: str

    def __str__(self) -> str:
        return f"{self.pattern}>{self.replacement}"


def strip_moves(rules: str, row: str, player: str) -> list[tuple[str, str]]:
    """The moves on a row in rising order of the rows that they lead to, each with its name.

    Where two rules lead to one row, the move has the name of the first.

    >>> strip_moves(".=1,0,0;A=0,0,0;L:..>AA;R:.>A", "...", "L")
    [('..>AA at 2', '.AA'), ('..>AA at 1', 'AA.')]
    """
    weights, all_rules = read_rules(rules)
    if not row or len(row) > MOST_CELLS or set(row) - set(weights):
        raise NoPosition(f"{row!r} is no row of this strip: its value tells what is wrong")
    if not all(lowers(weights, rule, len(row)) for rule in all_rules):
        raise NoPosition("a rule doesn't lower the row's weight: the strip's value tells which")
    found: dict[str, str] = {}
    for rule in all_rules:
        for start in range(len(row) - len(rule.pattern) + 1):
            if rule.player == player and row.startswith(rule.pattern, start):
                after = row[:start] + rule.replacement + row[start + len(rule.pattern) :]
                found.setdefault(after, f"{rule} at {start + 1}")
    return [(found[after], after) for after in sorted(found)]


def read_rules(text: str) -> tuple[Weights, list[Rule]]:
    """The weights of the symbols, and the rules; NoPosition where the text has none."""
    bad = NoPosition(f"{text!r} are no rules of a strip: the strip's value tells what is wrong")
    weights: Weights = {}
    rules: list[Rule] = []
    for part in text.split(";"):
        weight, rule = WEIGHT.fullmatch(part), RULE.fullmatch(part)
        if weight and not rules and weight[1] not in weights:
            weights[weight[1]] = int(weight[2]), int(weight[3]), int(weight[4])
        elif rule and weights and len(rule[2]) == len(rule[3]):
            rules.append(Rule(*rule.groups()))
        else:
            raise bad
    if any(set(rule.pattern + rule.replacement) - set(weights) for rule in rules):
        raise bad
    if len(weights) > MOST_SYMBOLS or len(rules) > MOST_RULES:
        raise bad
    return weights, rules


def lowers(weights: Weights, rule: Rule, cells: int) -> bool:
    """Whether a rule lowers the weight of a row of so many cells wherever its pattern fits in."""
    return all(
        weighed(weights, rule.replacement, start, cells)
        < weighed(weights, rule.pattern, start, cells)
        for start in range(cells - len(rule.pattern) + 1)
    )


def weighed(weights: Weights, symbols: str, start: int, cells: int) -> int:
    """What symbols weigh from a cell on: their own weights, and those for the cells beside them."""
    total = 0
    for place, symbol in enumerate(symbols, start):
        own, left, right = weights[symbol]
        total += own + left * place + right * (cells - 1 - place)
    return total
