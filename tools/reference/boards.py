"""Boards of cells in rows: their texts, the moves of the games played on them, and pieces.

A board is a tuple of rows. The moves of a player are the boards that they lead to, in rising order of the cells, each once.
"""

SYMBOLS = {"Domineering": ".#", "Clobber": ".xo", "Amazons": ".xo#", "Toads": ".TF"}
SIDES = ((-1, 0), (0, -1), (0, 1), (1, 0))
WAYS = tuple((i, j) for i in (-1, 0, 1) for j in (-1, 0, 1) if (i, j) != (0, 0))


class Fault(Exception):
    """A board is ill-formed: its argument is the cause and the place."""


def read_grid(text, symbols, one_row=False):
    """The board of a text: the rows are cut at bars, but where there is one row alone."""
    for place, symbol in enumerate(text, 1):
        if symbol not in symbols and (one_row or symbol != "|"):
            raise Fault(f"symbol {place}")
    rows = [text] if one_row else text.split("|")
    if not rows[0]:
        raise Fault("empty 1")
    begin = 1
    for row in rows:
        if len(row) != len(rows[0]):
            raise Fault(f"ragged {begin}")
        begin += len(row) + 1
    cells = [place for place, symbol in enumerate(text, 1) if symbol in symbols]
    if len(cells) > 64:
        raise Fault(f"large {cells[64]}")
    return tuple(rows)


def cells_of(board):
    """All places of a board, row by row."""
    return [(i, j) for i in range(len(board)) for j in range(len(board[0]))]


def at(board, place):
    """The symbol at a place, or an empty text outside the board."""
    i, j = place
    return board[i][j] if 0 <= i < len(board) and 0 <= j < len(board[0]) else ""


def written(board, changes):
    """The board with other symbols at some places."""
    rows = [list(row) for row in board]
    for (i, j), symbol in changes:
        rows[i][j] = symbol
    return tuple("".join(row) for row in rows)


def in_order(boards):
    """The boards in rising order, each once."""
    return sorted(set(boards))


def beside(place, way, times=1):
    """The place so many steps that way."""
    return place[0] + times * way[0], place[1] + times * way[1]


def domineering(board, left):
    """Left fills two empty cells, one above the other, and Right two side by side."""
    way = (1, 0) if left else (0, 1)
    pairs = [(place, beside(place, way)) for place in cells_of(board)]
    return in_order(written(board, [(a, "#"), (b, "#")]) for a, b in pairs if at(board, a) == "." and at(board, b) == ".")


def clobber(board, left):
    """A stone of the player moves onto a stone of the other beside it, which is removed."""
    own, other = "xo" if left else "ox"
    found = []
    for place in cells_of(board):
        for way in SIDES:
            if at(board, place) == own and at(board, beside(place, way)) == other:
                found.append(written(board, [(place, "."), (beside(place, way), own)]))
    return in_order(found)


def queen_goes(board, place):
    """The cells that a queen's move from the place ends on: at least one step along empty cells in one direction."""
    for way in WAYS:
        there = beside(place, way)
        while at(board, there) == ".":
            yield there
            there = beside(there, way)


def amazons(board, left):
    """A queen of the player moves, and from its new cell it shoots an arrow along empty cells, which blocks a cell."""
    own = "x" if left else "o"
    found = []
    for place in cells_of(board):
        if at(board, place) == own:
            for there in queen_goes(board, place):
                moved = written(board, [(place, "."), (there, own)])
                found += [written(moved, [(arrow, "#")]) for arrow in queen_goes(moved, there)]
    return in_order(found)


def toads(board, left):
    """A toad moves to the right, or a frog to the left, onto an empty cell or over one of the others into one."""
    own, other, way = ("T", "F", (0, 1)) if left else ("F", "T", (0, -1))
    found = []
    for place in cells_of(board):
        one, two = beside(place, way), beside(place, way, 2)
        if at(board, place) == own and at(board, one) == ".":
            found.append(written(board, [(place, "."), (one, own)]))
        if at(board, place) == own and at(board, one) == other and at(board, two) == ".":
            found.append(written(board, [(place, "."), (two, own)]))
    return in_order(found)


MOVES = {"Domineering": domineering, "Clobber": clobber, "Amazons": amazons, "Toads": toads}


class Grid:
    """One of the games on grids, as a position's rules."""

    def __init__(self, game):
        self.game, self.cuts = game, game in ("Domineering", "Clobber")

    def moves(self, board, left):
        """The boards after a player's moves."""
        return MOVES[self.game](board, left)

    def pieces(self, board):
        """The joined sets of empty cells (Domineering) or of stones (Clobber) in which some player has a move, each as the
        board of its bounding rows and columns in which all other cells are filled, or empty."""
        joins, blank = (".", "#") if self.game == "Domineering" else ("xo", ".")
        met, found = set(), []
        for place in cells_of(board):
            if place not in met and at(board, place) in joins:
                part = joined(board, place, joins)
                met |= part
                piece = cut_out(board, part, blank)
                if self.moves(piece, True) or self.moves(piece, False):
                    found.append(piece)
        return found


def joined(board, place, joins):
    """The cells with these symbols that are joined to the place by their sides."""
    part, ahead = {place}, [place]
    while ahead:
        here = ahead.pop()
        for there in (beside(here, way) for way in SIDES):
            if there not in part and at(board, there) and at(board, there) in joins:
                part.add(there)
                ahead.append(there)
    return part


def cut_out(board, part, blank):
    """The bounding rows and columns of a set of cells, with all other cells blank."""
    rows, columns = [i for i, _ in part], [j for _, j in part]
    return tuple(
        "".join(board[i][j] if (i, j) in part else blank for j in range(min(columns), max(columns) + 1))
        for i in range(min(rows), max(rows) + 1)
    )
