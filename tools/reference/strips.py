"""Games on a strip of cells, by their own rules."""
from .boards import Fault, in_order, read_grid
from .recognise import Grammar

SYMBOLS = "ABCDEFGHIJKLMNOPQRSTUVWXYZabcdefghijklmnopqrstuvwxyz."
RULES = """
rules   = weight { ";" weight } { ";" rule }
weight  = symbol "=" nat "," nat "," nat
rule    = ( "L" | "R" ) ":" pattern ">" pattern
pattern = symbol { symbol }
symbol  = sign
nat     = digits
"""


def sign(reading, start):
    """A letter or a point."""
    if reading.text[start : start + 1] not in tuple(SYMBOLS):
        return []
    reading.mark(start + 1)
    return [start + 1]


def digits(reading, start):
    """One to three digits: all ways."""
    end = start
    while end < len(reading.text) and end < start + 3 and reading.text[end] in "0123456789":
        end += 1
    reading.mark(end)
    return range(start + 1, end + 1)


GRAMMAR = Grammar(RULES, {"sign": sign, "digits": digits}, ("rules",))


class Strip:
    """The rules of a game on a strip: the weights of its symbols, by symbol, and its rules, each with whether it is Left's,
    its pattern and its replacement."""

    cuts = False

    def __init__(self, text):
        nodes, passed = GRAMMAR.read("rules", text)
        if nodes is None:
            raise Fault(f"rules {passed + 1}")
        self.weights, self.rules, faults = {}, [], []
        for count, item in enumerate((one for one in nodes if one.name == "weight"), 1):
            symbol = text[item.start]
            if symbol in self.weights or count > 16:
                faults.append(item.start)
            self.weights[symbol] = tuple(int(text[one.start : one.end]) for one in item.inside if one.name == "nat")
        for count, item in enumerate((one for one in nodes if one.name == "rule"), 1):
            pattern, replacement = (text[part.start : part.end] for part in item.inside)
            self.rules.append((text[item.start] == "L", pattern, replacement))
            if count > 32 or len(pattern) != len(replacement):
                faults.append(item.start)
            faults += [one.start for part in item.inside for one in part.inside if text[one.start] not in self.weights]
        if faults:
            raise Fault(f"rules {min(faults) + 1}")

    def board(self, text):
        """The row of a text, on which every rule has to lower the sum of the weights wherever its pattern fits in."""
        board = read_grid(text, "".join(self.weights), one_row=True)
        for count, (_, pattern, replacement) in enumerate(self.rules, 1):
            for start in range(len(text) - len(pattern) + 1):
                if self.weight(replacement, start, len(text)) >= self.weight(pattern, start, len(text)):
                    raise Fault(f"lowering {count}")
        return board

    def weight(self, symbols, start, cells):
        """What symbols weigh from a cell on: each its own weight, and those for each cell to its left and to its right."""
        total = 0
        for place, symbol in enumerate(symbols, start):
            own, left, right = self.weights[symbol]
            total += own + left * place + right * (cells - 1 - place)
        return total

    def moves(self, board, left):
        """The rows in which some rule's replacement was written over its pattern."""
        (row,) = board
        found = []
        for lefts, pattern, replacement in self.rules:
            for start in range(len(row) - len(pattern) + 1):
                if lefts == left and row.startswith(pattern, start):
                    found.append((row[:start] + replacement + row[start + len(pattern) :],))
        return in_order(found)
