"""Moves: what a player may do on a board, in the order in which the program lists it."""
from __future__ import annotations

from dataclasses import replace
from typing import TYPE_CHECKING

from cgcalc.moves.graphs import colouring_moves, hackenbush_moves
from cgcalc.moves.grids import grid_moves
from cgcalc.moves.heaps import heap_moves
from cgcalc.moves.move import LEFT, OTHER, PLAYERS, RIGHT, Move, NoPosition, check_player
from cgcalc.moves.strips import strip_moves

if TYPE_CHECKING:
    from cgcalc.board import Board

__all__ = ["LEFT", "OTHER", "PLAYERS", "RIGHT", "Move", "NoPosition", "moves_of"]


def moves_of(board: Board, player: str) -> list[Move]:
    """The moves of a player on a board; NoPosition where its texts break the rules of its game."""
    check_player(player)
    texts = board.texts
    if board.game == "Octal":
        return [
            Move(player, name, tuple(replace(board, tokens=heap) for heap in heaps))
            for name, heaps in heap_moves(texts[0], board.tokens or 0)
        ]
    if board.game == "Hackenbush":
        return [
            Move(player, name, (replace(board, texts=(left,)),) if left else ())
            for name, left in hackenbush_moves(texts[0], player)
        ]
    if board.game == "Strip":
        found = strip_moves(texts[0], texts[1], player)
    elif board.game in ("Col", "Snort"):
        found = colouring_moves(board.game, texts[0], texts[1], player)
    else:
        found = grid_moves(board.game, texts[0], player)
    return [Move(player, name, (_with_cells(board, after),)) for name, after in found]


def _with_cells(board: Board, after: str) -> Board:
    """The board with other cells, or vertices of other colours."""
    if board.game == "Strip":
        return replace(board, texts=(board.texts[0], after))
    return replace(board, texts=(after, *board.texts[1:]))
