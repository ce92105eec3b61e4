"""Pictures of canonical forms as trees: Left's options to the left below, Right's to the right."""
from __future__ import annotations

from dataclasses import dataclass, field
from typing import TYPE_CHECKING, Optional

from cgcalc.errors import WrongCall
from cgcalc.svg import FONT_SIZE, INK, LEFT, RIGHT, Picture, path, width_of, words

if TYPE_CHECKING:
    from cgcalc.values import Value

MARGIN = 14
LEVEL = 44
GAP = 12
MOST_NODES = 500


@dataclass
class Node:
    """A form in a tree, with its place."""

    label: str
    lefts: list[Node] = field(default_factory=list)
    rights: list[Node] = field(default_factory=list)
    x: float = 0
    y: float = 0

    @property
    def options(self) -> list[Node]:
        """Left's options, then Right's."""
        return [*self.lefts, *self.rights]


def tree_picture(value: Value, title: Optional[str] = None) -> Picture:
    """The tree of a canonical form, in which numbers stand for themselves.

    Left's moves are blue lines, Right's red ones.
    """
    root = _node(value, [MOST_NODES])
    width, depth = _placed(root, MARGIN, MARGIN + FONT_SIZE)
    lines: list[str] = []
    _draw(root, lines)
    shows = f"{title or value.name}. Canonical form as a tree"
    return Picture(width + MARGIN, depth + MARGIN, shows, "\n".join(lines))


def _node(value: Value, left: list[int]) -> Node:
    """The tree below a form; `left` has how many nodes there may be still."""
    left[0] -= 1
    if left[0] < 0:
        raise WrongCall(f"a tree of more than {MOST_NODES} forms isn't drawn")
    if value.number is not None:
        return Node(value.name)
    lefts = [_node(option, left) for option in value.left_options]
    rights = [_node(option, left) for option in value.right_options]
    return Node("", lefts, rights)


def _placed(node: Node, x: float, y: float) -> tuple[float, float]:
    """Places a tree from a column and a line on; gives where it ends on both."""
    node.y = y
    if not node.options:
        wide = max(width_of(node.label), GAP)
        node.x = x + wide / 2
        return x + wide, y + FONT_SIZE / 2
    end, lowest = x, y
    for number, option in enumerate(node.options):
        end, low = _placed(option, end + (GAP if number else 0), y + LEVEL)
        lowest = max(lowest, low)
    node.x = (node.options[0].x + node.options[-1].x) / 2
    if node.lefts and node.rights:
        node.x = (node.lefts[-1].x + node.rights[0].x) / 2
    return end, lowest


def _draw(node: Node, lines: list[str]) -> None:
    """Adds a tree's lines and labels."""
    for options, colour in ((node.lefts, LEFT), (node.rights, RIGHT)):
        for option in options:
            below = option.y - (FONT_SIZE if option.label else 0)
            ends = ((node.x, node.y), (option.x, below))
            lines.append(path(*ends, stroke=colour, stroke_width=1.5))
            _draw(option, lines)
    if node.label:
        place = {"text_anchor": "middle", "fill": INK}
        lines.append(words(node.label, node.x, node.y, **place))
