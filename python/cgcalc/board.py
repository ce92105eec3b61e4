"""Positions of games on boards, strips, drawings, graphs and heaps, as the texts that tell them."""
from __future__ import annotations

import re
from dataclasses import dataclass
from typing import Optional

from cgcalc.board_pictures import board_picture
from cgcalc.errors import WrongCall
from cgcalc.games import GAMES
from cgcalc.moves import Move, moves_of
from cgcalc.operands import Operand

TEXT = re.compile(r"[\x20\x21\x23-\x7e]*")
WRITTEN = re.compile(
    r"""\s*([A-Z][a-z]+)\s*\(\s*"([^"]*)"\s*(?:,\s*(?:"([^"]*)"|([0-9]{1,30}))\s*)?\)\s*"""
)
NUMBER_OF_TEXTS = {"Strip": 2, "Col": 2, "Snort": 2}


@dataclass(frozen=True)
class Board(Operand):
    """A position: the game's name, its texts, and in octal games the number of tokens.

    >>> Board("Snort", ("..", "ab")).expression
    'Snort("..","ab")'
    """

    game: str
    texts: tuple[str, ...]
    tokens: Optional[int] = None

    def __post_init__(self) -> None:
        if self.game not in GAMES:
            raise WrongCall(f"{self.game!r} is none of the games {', '.join(GAMES)}")
        for text in self.texts:
            if not isinstance(text, str) or not TEXT.fullmatch(text):
                raise WrongCall(
                    f"{text!r} is no text of a board, which has plain letters, digits and signs"
                    " alone, and no quotation mark"
                )

    @property
    def expression(self) -> str:
        """The position in the notation."""
        parts = [f'"{text}"' for text in self.texts]
        if self.tokens is not None:
            parts.append(str(self.tokens))
        return f"{self.game}({','.join(parts)})"

    def moves(self, player: str) -> list[Move]:
        """The moves of `"L"` or `"R"` in the program's order, each with a name and what it leaves.

        A cell is named by the letter of its column and the number of its row, the first row of the
        text being 1.

        >>> [(move.name, move.expression) for move in Board("Domineering", ("..|..",)).moves("L")]
        [('a1-a2', 'Domineering("#.|#.")'), ('b1-b2', 'Domineering(".#|.#")')]
        """
        return moves_of(self, player)

    def svg(self) -> str:
        """A picture of the position in SVG."""
        picture = board_picture(self)
        if picture is None:
            raise WrongCall(f"{self.expression} can't be drawn: its value tells what is wrong")
        return picture.svg()

    def _repr_svg_(self) -> Optional[str]:
        """The picture, for notebooks; none of what is no position."""
        picture = board_picture(self)
        return None if picture is None else picture.svg()


def read_board(expression: str) -> Optional[Board]:
    """The position that an expression is, or None where it is none.

    >>> read_board('Octal("0.77", 9)')
    Board(game='Octal', texts=('0.77',), tokens=9)
    >>> read_board("{2|-1}") is None
    True
    """
    found = WRITTEN.fullmatch(expression)
    if not found or found[1] not in GAMES:
        return None
    texts = (found[2],) if found[3] is None else (found[2], found[3])
    tokens = None if found[4] is None else int(found[4])
    if len(texts) != NUMBER_OF_TEXTS.get(found[1], 1) or (tokens is None) == (found[1] == "Octal"):
        return None
    if not all(TEXT.fullmatch(text) for text in texts):
        return None
    return Board(found[1], texts, tokens)
