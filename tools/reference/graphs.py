"""Hackenbush, Col and Snort, as rows of cells: one for each edge, or one for each vertex."""
from .boards import Fault, in_order
from .recognise import Grammar

LETTERS = "abcdefghijklmnopqrstuvwxyzABCDEFGHIJKLMNOPQRSTUVWXYZ"
VERTICES = tuple("0123456789ABCDEFGHIJKLMNOPQRSTUVWXYZ")


def one_of(letters):
    """The token of one of these letters."""

    def read(reading, start):
        if reading.text[start : start + 1] not in letters:
            return []
        reading.mark(start + 1)
        return [start + 1]

    return read


DRAWING = Grammar(
    'drawing = edge { "," edge }\nedge = vertex colour vertex',
    {"vertex": one_of(VERTICES), "colour": one_of(("b", "r", "g"))},
    ("drawing",),
)
PAIRS = Grammar('pairs = [ pair { "," pair } ]\npair = letter letter', {"letter": one_of(tuple(LETTERS))}, ("pairs",))


def written(cells, place, symbol):
    """The row with another symbol at a place."""
    return cells[:place] + symbol + cells[place + 1 :]


class Hackenbush:
    """The edges of a drawing. A position is a row of their colours, with a point where an edge is gone."""

    cuts = False

    def __init__(self, text):
        nodes, passed = DRAWING.read("drawing", text)
        if nodes is None:
            raise Fault(f"edges {passed + 1}")
        if len(nodes) > 64:
            raise Fault(f"large {nodes[64].start + 1}")
        self.edges = [text[one.start : one.end] for one in nodes]

    def start(self):
        """The drawing as it is given, without the edges that aren't joined to the ground."""
        return (self.joined("".join(edge[1] for edge in self.edges)),)

    def joined(self, cells):
        """The row without the edges to none of whose ends a path of edges that are there leads from the ground."""
        reached, more = {"0"}, True
        while more:
            there = [edge for edge, cell in zip(self.edges, cells) if cell != "." and {edge[0], edge[2]} & reached]
            ends = {end for edge in there for end in edge[::2]}
            more = not ends <= reached
            reached |= ends
        return "".join(cell if {edge[0], edge[2]} & reached else "." for edge, cell in zip(self.edges, cells))

    def moves(self, board, left):
        """Left cuts a blue or a green edge and Right a red or a green one, and then what isn't joined to the ground goes."""
        (cells,) = board
        own = "bg" if left else "rg"
        return in_order((self.joined(written(cells, place, ".")),) for place, cell in enumerate(cells) if cell in own)


class Colouring:
    """The neighbours of each vertex of a graph. A position is a row of the vertices' colours."""

    cuts = False

    def __init__(self, snort, vertices, edges):
        for place, symbol in enumerate(vertices, 1):
            if symbol not in ".xo":
                raise Fault(f"symbol {place}")
        if not vertices:
            raise Fault("empty 1")
        if len(vertices) > 52:
            raise Fault("large 53")
        nodes, passed = PAIRS.read("pairs", edges)
        if nodes is None:
            raise Fault(f"edges {passed + 1}")
        self.snort, self.vertices = snort, vertices
        self.neighbours = [set() for _ in vertices]
        faults = []
        for one in nodes:
            pair = [LETTERS.index(edges[place]) for place in (one.start, one.start + 1)]
            faults += [one.start + at for at, vertex in enumerate(pair) if vertex >= len(vertices)]
            if pair[0] == pair[1]:
                faults.append(one.start + 1)
            if not faults:
                self.neighbours[pair[0]].add(pair[1])
                self.neighbours[pair[1]].add(pair[0])
        if faults:
            raise Fault(f"edges {min(faults) + 1}")

    def start(self):
        """The vertices as they are given."""
        return (self.vertices,)

    def moves(self, board, left):
        """A player gives a free vertex the own colour: in Snort where no neighbour has the other's, in Col where none has
        the own."""
        (cells,) = board
        own, other = "xo" if left else "ox"
        barred = other if self.snort else own
        free = [v for v, cell in enumerate(cells) if cell == "." and not any(cells[w] == barred for w in self.neighbours[v])]
        return in_order((written(cells, v, own),) for v in free)
