"""Which moves count, for each other the reason, and the options of games."""
from __future__ import annotations

import unittest

from cgcalc import Game, Refused, Session, clobber, domineering, hackenbush, octal, toads
from cgcalc.moves.sums import sum_of
from tests.test_moves import seeded

BOARDS_PER_GAME = 12
GAMES = ("Amazons", "Clobber", "Col", "Domineering", "Hackenbush", "Snort", "Strip", "Toads")
SIGNS = {"L": ("<", "="), "R": (">", "=")}


class Judged(unittest.TestCase):
    """Every move is in the canonical form, dominated or reversible, as the program says."""

    def test_seeded_boards(self) -> None:
        session = Session()
        judged = {"sensible": 0, "dominated": 0, "reversible": 0}
        for name in GAMES:
            for board in seeded(name, BOARDS_PER_GAME):
                for player in ("L", "R"):
                    self.check_board(Game(board, session=session), player, judged)
        self.assertTrue(all(count > 15 for count in judged.values()), judged)

    def check_board(self, game: Game, player: str, judged: dict[str, int]) -> None:
        """That the moves of a board are judged rightly."""
        board = game.board
        assert board is not None
        found, value = game.sensible_moves(player), game.value
        options = value.left_options if player == "L" else value.right_options
        names = {move.name for move in found} | {other.move.name for other in found.others}
        self.assertEqual(names, {move.name for move in board.moves(player)})
        for move in found:
            self.assertIn(game.session.value(move.expression), options)
        for other in found.others:
            self.assertNotIn(game.session.value(other.move.expression), options)
            dominated = other.why == "dominated"
            less, more = (other.move, other.by) if dominated else (other.by, None)
            better = game.expression if more is None else sum_of(more.after)
            sign = game.session.compare(sum_of(less.after), better).sign
            self.assertIn(sign, SIGNS[player], (game, str(other)))
            judged[other.why] += 1
        judged["sensible"] += len(found)

    def test_the_reasons_name_moves(self) -> None:
        found = domineering("....|....|....|....").sensible_moves("L")
        self.assertEqual([move.name for move in found], ["b1-b2", "c1-c2", "b3-b4", "c3-c4"])
        self.assertEqual(str(found.others[2]), "a2-a3 is reversible through b2-c2")
        self.assertEqual(len(found), 4)

    def test_a_refusal(self) -> None:
        tight = Session(share=40)
        with self.assertRaises(Refused):
            Game('Clobber("xoxo|oxox")', session=tight).sensible_moves("L")


class OptionsOfGames(unittest.TestCase):
    """What the moves of a game leave."""

    def test_boards_and_sums(self) -> None:
        self.assertEqual([str(one) for one in toads("T.F").options("L")], ['Toads(".TF")'])
        whole = toads("T.F") - domineering("..|..") + Game("{1|0}")
        texts = [str(option) for option in whole.options("L")]
        self.assertEqual(
            texts,
            [
                'Toads(".TF") + -Domineering("..|..") + {1|0}',
                'Toads("T.F") + -Domineering("##|..") + {1|0}',
                'Toads("T.F") + -Domineering("..|##") + {1|0}',
                'Toads("T.F") + -Domineering("..|..") + 1',
            ],
        )
        self.assertEqual(whole.value.name, str(Session().value(str(whole))))

    def test_the_brace_of_the_options_is_the_game(self) -> None:
        for whole in (clobber("xo|ox") - 2 * Game("^"), octal("0.77", 5) + hackenbush("0b1,1r2")):
            sides = [",".join(map(str, whole.options(player))) for player in ("L", "R")]
            self.assertEqual(Game(f"{{{sides[0]}|{sides[1]}}}"), whole)

    def test_where_nothing_is_left(self) -> None:
        self.assertEqual([str(one) for one in hackenbush("0b1").options("L")], ["0"])
        self.assertEqual(Game(0).options("L"), [])
        self.assertEqual(Game(-2).options("L"), [])

    def test_names_keep_their_meaning(self) -> None:
        session = Session()
        session.define("g", "{2|-1}")
        whole = Game("g + ^", session=session)
        session.define("g", "{9|-9}")
        self.assertEqual([one.value.name for one in whole.options("L")], ["2^"])
        self.assertEqual([str(move) for move in whole.sensible_moves("R")], ["to -1^"])


if __name__ == "__main__":
    unittest.main()
