"""Moves: their names, what they leave, and that the program plays by the same rules."""
from __future__ import annotations

import importlib
import random
import sys
import unittest
from typing import Any, Optional

from cgcalc import Board, Refusal, Session, Value, WrongCall
from cgcalc.board import read_board
from cgcalc.games import GAMES
from cgcalc.moves import NoPosition
from tests.places import ROOT

BOARDS_PER_GAME = 1_000
SPOILED_PER_GAME = 300
MOST_TOKENS = 24


def of_tools(name: str) -> Any:
    """A module of tools/, where the second program of the gate and its boards made by dice are."""
    tools = str(ROOT / "tools")
    if tools not in sys.path:
        sys.path.append(tools)
    return importlib.import_module(name)


def seeded(game: str, count: int, wide: float = 0.0) -> list[Board]:
    """So many different positions of a game, made by dice, some of them wide."""
    positions, dice = of_tools("seeded.positions"), random.Random(f"moves of {game}")
    found: dict[str, Board] = {}
    while len(found) < count:
        board = read_board(positions.position(dice, game, wide=dice.random() < wide))
        if board is not None and of_reference(board) and not (board.tokens or 0) > MOST_TOKENS:
            found.setdefault(board.expression, board)
    return list(found.values())


def spoiled(game: str, count: int) -> list[Board]:
    """Texts of a game that were changed at a byte, cut off or doubled."""
    positions, dice = of_tools("seeded.positions"), random.Random(f"spoiled {game}")
    found: list[Board] = []
    while len(found) < count:
        board = read_board(positions.spoiled(dice, game))
        if board is not None:
            found.append(board)
    return found


class Names(unittest.TestCase):
    """What moves are called and what they leave, game by game."""

    def moves(self, board: Board, player: str) -> list[tuple[str, str]]:
        """The names of a player's moves with what they leave."""
        return [(move.name, move.expression) for move in board.moves(player)]

    def test_domineering(self) -> None:
        self.assertEqual(
            self.moves(Board("Domineering", ("..|..|#.",)), "L"),
            [
                ("a1-a2", 'Domineering("#.|#.|#.")'),
                ("b1-b2", 'Domineering(".#|.#|#.")'),
                ("b2-b3", 'Domineering("..|.#|##")'),
            ],
        )

    def test_clobber(self) -> None:
        board = Board("Clobber", ("xo|ox",))
        names = [name for name, _ in self.moves(board, "R")]
        self.assertEqual(names, ["b1-a1", "a2-a1", "b1-b2", "a2-b2"])

    def test_amazons(self) -> None:
        self.assertEqual(
            self.moves(Board("Amazons", ("x..",)), "L"),
            [
                ("a1-c1/a1", 'Amazons("#.x")'),
                ("a1-b1/a1", 'Amazons("#x.")'),
                ("a1-c1/b1", 'Amazons(".#x")'),
                ("a1-b1/c1", 'Amazons(".x#")'),
            ],
        )

    def test_toads(self) -> None:
        board = Board("Toads", ("TTF.F",))
        self.assertEqual(self.moves(board, "L"), [("2-4", 'Toads("T.FTF")')])
        self.assertEqual(self.moves(board, "R"), [("5-4", 'Toads("TTFF.")')])

    def test_hackenbush(self) -> None:
        board = Board("Hackenbush", ("0b1,0b1,1g2",))
        self.assertEqual(
            self.moves(board, "L"),
            [
                ("0b1", 'Hackenbush("0b1,1g2")'),
                ("0b1#2", 'Hackenbush("0b1,1g2")'),
                ("1g2", 'Hackenbush("0b1,0b1")'),
            ],
        )
        (last,) = Board("Hackenbush", ("0b1,1b2",)).moves("L")[:1]
        self.assertEqual((last.expression, last.board, last.boards), ("0", None, ()))

    def test_col_and_snort(self) -> None:
        after_a = 'Col("x.x","ab,bc")'
        self.assertEqual(self.moves(Board("Col", ("..x", "ab,bc")), "L"), [("a", after_a)])
        self.assertEqual(
            self.moves(Board("Snort", ("..x", "ab,bc")), "L"),
            [("b", 'Snort(".xx","ab,bc")'), ("a", 'Snort("x.x","ab,bc")')],
        )

    def test_octal(self) -> None:
        names = [name for name, _ in self.moves(Board("Octal", ("0.137",), 4), "R")]
        self.assertEqual(names, ["take 2, leave 2", "take 3, leave 1"])
        two, none = Board("Octal", ("0.07",), 4), Board("Octal", ("0.1",), 1)
        after_two = [
            ("take 2, leave 2", 'Octal("0.07",2)'),
            ("take 2, leave 1+1", 'Octal("0.07",1) + Octal("0.07",1)'),
        ]
        self.assertEqual(self.moves(two, "L"), after_two)
        self.assertEqual(self.moves(none, "L"), [("take 1, leave none", "0")])

    def test_players(self) -> None:
        for player in ("l", "Left", "", None, 3):
            with self.assertRaisesRegex(WrongCall, "a player is 'L' or 'R'"):
                Board("Toads", ("T.F",)).moves(player)  # type: ignore[arg-type]

    def test_what_is_no_position(self) -> None:
        with self.assertRaisesRegex(NoPosition, "its value tells what is wrong"):
            Board("Domineering", ("..|.",)).moves("L")


class Rules(unittest.TestCase):
    """The moves are those of the program and those of the reference."""

    def test_the_program_gives_a_board_the_value_of_its_moves(self) -> None:
        session = Session()
        for game in GAMES:
            with self.subTest(game):
                self.check_values(session, seeded(game, BOARDS_PER_GAME))

    def check_values(self, session: Session, boards: list[Board]) -> None:
        """That each board equals the brace of its moves, whose values its form comes from."""
        moves = [(board.moves("L"), board.moves("R")) for board in boards]
        texts = {move.expression for sides in moves for side in sides for move in side}
        asked = sorted(texts | {board.expression for board in boards})
        replies = session.ask([f"value {text}" for text in asked])
        values = dict(zip(asked, replies))
        lines, whole = [], []
        for board, sides in zip(boards, moves):
            found = [list({values[move.expression]: 0 for move in side}) for side in sides]
            brace = "|".join(",".join(map(str, side)) for side in found)
            lines.append(f"compare {board.expression} ; {{{brace}}}")
            whole.append((values[board.expression], found))
        for line, reply in zip(lines, session.ask(lines)):
            self.assertEqual(str(reply), "=", line)
        for value, found in whole:
            assert isinstance(value, Value)
            self.assertLessEqual(set(value.left_options), within_reach(found[0], True), value)
            self.assertLessEqual(set(value.right_options), within_reach(found[1], False), value)

    def test_the_reference_has_the_same_lists(self) -> None:
        compared = 0
        for game in GAMES:
            for board in seeded(game, BOARDS_PER_GAME, wide=0.1):
                for player in ("L", "R"):
                    found = [after(move.expression) for move in board.moves(player)]
                    wanted = lists_of_reference(board, player)
                    self.assertEqual(found, wanted, (board.expression, player))
                    compared += 1
        self.assertEqual(compared, 2 * BOARDS_PER_GAME * len(GAMES))

    def test_what_the_program_refuses_as_a_board_has_no_moves(self) -> None:
        session = Session(share=1_024)
        for game in GAMES:
            boards = spoiled(game, SPOILED_PER_GAME)
            replies = session.ask([f"value {board.expression}" for board in boards])
            refused = 0
            for board, reply in zip(boards, replies):
                bad = isinstance(reply, Refusal) and reply.kind == "board"
                self.assertEqual(moves_or_none(board) is None, bad, (board, reply))
                refused += bad
            self.assertGreater(refused, SPOILED_PER_GAME // 10, game)


def within_reach(values: list[Any], left: bool) -> set[Value]:
    """The values, and what comes in their place where they are reversible, again and again."""
    found, waiting = set(values), list(values)
    while waiting:
        value = waiting.pop()
        answers = value.right_options if left else value.left_options
        for answer in answers:
            further = answer.left_options if left else answer.right_options
            waiting += [one for one in further if one not in found]
            found.update(further)
    return found


def moves_or_none(board: Board) -> Optional[int]:
    """How many moves Left has, or None where the board is no position."""
    try:
        return len(board.moves("L"))
    except NoPosition:
        return None


def after(expression: str) -> str:
    """What a move leaves, as the reference is asked about it: the cells of a board."""
    board = read_board(expression)
    if board is None or board.game == "Octal":
        return expression
    return {"Strip": board.texts[-1]}.get(board.game, board.texts[0])


def of_reference(board: Board) -> Any:
    """What the reference knows a board as, or None where it refuses it."""
    if board.game == "Octal":
        return board
    cells, rules = board.texts[0], ""
    if board.game == "Strip":
        rules, cells = board.texts
    elif board.game == "Hackenbush":
        rules, cells = board.texts[0], ""
    elif board.game in ("Col", "Snort"):
        cells, rules = board.texts
    play = of_tools("reference.play")
    try:
        return play.position((board.game, rules, cells))
    except of_tools("reference.boards").Fault:
        return None


def lists_of_reference(board: Board, player: str) -> list[str]:
    """The same list by the reference."""
    if board.game == "Octal":
        return of_heap(board)
    played, start = of_reference(board)
    boards = played.rules.moves(start, player == "L")
    if board.game != "Hackenbush":
        return ["|".join(rows) for rows in boards]
    edges = board.texts[0].split(",")
    left = [[edge for edge, cell in zip(edges, row) if cell != "."] for (row,) in boards]
    return [",".join(one) or "0" for one in left]


def of_heap(board: Board) -> list[str]:
    """The moves of a heap by the manual's words on codes: the reference lists none."""
    code, tokens = board.texts[0], board.tokens or 0
    found = []
    for taken, digit in enumerate(map(int, code[2:]), 1):
        left = tokens - taken
        if left == 0 and digit in (1, 3, 5, 7):
            found.append("0")
        if left > 0 and digit in (2, 3, 6, 7):
            found.append(f'Octal("{code}",{left})')
        if left > 0 and digit >= 4:
            pairs = [(one, left - one) for one in range(1, left) if one <= left - one]
            found += [f'Octal("{code}",{a}) + Octal("{code}",{b})' for a, b in pairs]
    return found


if __name__ == "__main__":
    unittest.main()
