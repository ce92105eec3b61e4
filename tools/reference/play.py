"""Positions: their rules and boards, and what play comes to."""
from . import forms, whole
from .boards import SYMBOLS, Grid, read_grid
from .expressions import Board, Octal, leaves
from .graphs import Colouring, Hackenbush
from .octal import read_octal
from .strips import Strip


FOUND: dict = {}


def forget():
    """Forgets all positions."""
    FOUND.clear()


def position(expression):
    """The play by the rules of a position and its board, or Fault."""
    if expression not in FOUND:
        game, rules, cells = expression
        if game == "Strip":
            strip = Strip(rules)
            FOUND[expression] = Play(strip), strip.board(cells)
        elif game == "Hackenbush":
            drawing = Hackenbush(rules)
            FOUND[expression] = Play(drawing), drawing.start()
        elif game in ("Col", "Snort"):
            graph = Colouring(game == "Snort", cells, rules)
            FOUND[expression] = Play(graph), graph.start()
        else:
            board = read_grid(cells, SYMBOLS[game], one_row=game == "Toads")
            FOUND[expression] = FOUND.setdefault(game, Play(Grid(game))), board
    return FOUND[expression]


def look_at_boards(expressions):
    """Fault for the first board or octal game, from the left, that is ill-formed."""
    for expression in expressions:
        for one in leaves(expression, (Board, Octal)):
            if isinstance(one, Octal):
                read_octal(one.code, one.heap)
            else:
                position(one)


class TooMany(Exception):
    """Play can come to more positions than the limit."""


class Play:
    """The positions that play by some rules can come to, and their values."""

    def __init__(self, rules):
        self.rules, self.after, self.cut, self.made, self.whole = rules, {}, {}, {}, {}

    def moves(self, board):
        """The boards after Left's moves, and those after Right's."""
        if board not in self.after:
            self.after[board] = self.rules.moves(board, True), self.rules.moves(board, False)
        return self.after[board]

    def pieces(self, board):
        """The pieces of a board."""
        if board not in self.cut:
            self.cut[board] = self.rules.pieces(board)
        return self.cut[board]

    def reach(self, board, reached, limit):
        """Lists what Left's moves come to, then what Right's do, then the board, each where it comes first."""
        if board not in reached:
            lefts, rights = self.moves(board)
            for next_board in lefts + rights:
                self.reach_parts(next_board, reached, limit)
            reached[board] = len(reached)
            if len(reached) > limit:
                raise TooMany

    def reach_parts(self, board, reached, limit):
        """The same of a board, or of its pieces where the rules cut."""
        for part in self.pieces(board) if self.rules.cuts else [board]:
            self.reach(part, reached, limit)

    def listing(self, board, limit):
        """All that play can come to, in order, or None where it is more than the limit."""
        reached = {}
        try:
            self.reach_parts(board, reached, limit)
        except TooMany:
            return None
        return list(reached)

    def value(self, board):
        """The canonical form of the tree of all moves; a board that is cut equals the sum of its pieces. That of a small board
        has to be what its whole tree reduces to by the definition."""
        if board not in self.made:
            if self.rules.cuts and self.pieces(board) != [board]:
                form = forms.number(0)
                for piece in self.pieces(board):
                    form = forms.plus(form, self.value(piece))
            else:
                form = forms.canonical(*([self.value(after) for after in side] for side in self.moves(board)))
            if whole.small(board) and form is not whole.value(self.rules, board, self.whole):
                raise whole.Differs(f"the pieces of {board} and its whole tree")
            self.made[board] = form
        return self.made[board]
