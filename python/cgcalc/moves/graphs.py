"""Moves on drawings and graphs: Hackenbush, Col and Snort."""
from __future__ import annotations

import re

from cgcalc.moves.move import LEFT, NoPosition

EDGE = re.compile(r"[0-9A-Z][brg][0-9A-Z]")
GROUND = "0"
GONE = "."
MOST_EDGES = 64
VERTICES = "abcdefghijklmnopqrstuvwxyzABCDEFGHIJKLMNOPQRSTUVWXYZ"


def hackenbush_moves(text: str, player: str) -> list[tuple[str, str]]:
    """The cuts of a drawing, each with the edge as its name and the edges that are left.

    Of several edges with one text the second is named as `0b1#2`. The order is that of the rows of
    colours that are left, with a point where an edge is gone.

    >>> hackenbush_moves("0b1,1r2,0g2", "L")
    [('0b1', '1r2,0g2'), ('0g2', '0b1,1r2')]
    """
    edges = read_edges(text)
    standing = joined(edges, [edge[1] for edge in edges])
    own = "bg" if player == LEFT else "rg"
    found = {}
    for at, colour in enumerate(standing):
        if colour in own:
            cut = joined(edges, [*standing[:at], GONE, *standing[at + 1 :]])
            found["".join(cut)] = edge_name(edges, at)
    return [(found[cut], left_of(edges, cut)) for cut in sorted(found)]


def read_edges(text: str) -> list[str]:
    """The edges of a drawing; NoPosition where the text is none."""
    edges = text.split(",")
    if len(edges) > MOST_EDGES or not all(EDGE.fullmatch(edge) for edge in edges):
        raise NoPosition(f"{text!r} is no drawing: its value tells what is wrong")
    return edges


def joined(edges: list[str], colours: list[str]) -> list[str]:
    """The colours of the edges, without those that no path joins to the ground."""
    reached = {GROUND}
    before = 0
    while len(reached) > before:
        before = len(reached)
        for edge, colour in zip(edges, colours):
            if colour != GONE and {edge[0], edge[2]} & reached:
                reached |= {edge[0], edge[2]}
    return [colour if edge[0] in reached else GONE for edge, colour in zip(edges, colours)]


def left_of(edges: list[str], colours: str) -> str:
    """The text of the edges that are left."""
    return ",".join(edge for edge, colour in zip(edges, colours) if colour != GONE)


def edge_name(edges: list[str], at: int) -> str:
    """The name of an edge: its text, with a number from the second one with this text on."""
    again = edges[: at + 1].count(edges[at])
    return edges[at] if again == 1 else f"{edges[at]}#{again}"


def colouring_moves(game: str, vertices: str, edges: str, player: str) -> list[tuple[str, str]]:
    """The vertices that a player may colour, each with the vertices afterwards.

    >>> colouring_moves("Snort", "..x", "ab,bc", "R")
    [('a', 'o.x')]
    """
    near = read_graph(vertices, edges)
    own, other = ("x", "o") if player == LEFT else ("o", "x")
    barred = other if game == "Snort" else own
    found = {}
    for at, symbol in enumerate(vertices):
        if symbol == "." and not any(vertices[beside] == barred for beside in near[at]):
            found[vertices[:at] + own + vertices[at + 1 :]] = VERTICES[at]
    return [(found[after], after) for after in sorted(found)]


def read_graph(vertices: str, edges: str) -> list[set[int]]:
    """The neighbours of each vertex; NoPosition where the texts tell no graph."""
    bad = NoPosition(f"{vertices!r} and {edges!r} are no graph: its value tells what is wrong")
    if not 1 <= len(vertices) <= len(VERTICES) or set(vertices) - set(".xo"):
        raise bad
    near: list[set[int]] = [set() for _ in vertices]
    for pair in edges.split(",") if edges else []:
        ends = [VERTICES[: len(vertices)].find(letter) for letter in pair]
        if len(ends) != 2 or -1 in ends or ends[0] == ends[1]:
            raise bad
        near[ends[0]].add(ends[1])
        near[ends[1]].add(ends[0])
    return near
