"""Games from boards, and what their pictures show."""
from __future__ import annotations

import shutil
import unittest
from typing import Callable
from xml.etree import ElementTree

from cgcalc import (
    Board,
    Game,
    Refused,
    Value,
    WrongCall,
    amazons,
    clobber,
    col,
    domineering,
    hackenbush,
    octal,
    snort,
    strip,
    toads,
)
from cgcalc.board import read_board
from cgcalc.svg import EITHER, LEFT, RIGHT
from tests.pixels import rendered
from tests.test_pictures import SVG, colour

RULES = ".=0,0,0;x=0,0,1;o=0,1,0;L:x.>.x;L:x..>..x;R:.o>o."
ROWS: list[tuple[Game, str, str]] = [
    (domineering("...|..."), 'Domineering("...|...")', "{2|-1/2}"),
    (domineering(["...", "..."]), 'Domineering("...|...")', "{2|-1/2}"),
    (domineering("\n  ...\n  ...\n"), 'Domineering("...|...")', "{2|-1/2}"),
    (clobber("xxo"), 'Clobber("xxo")', "^"),
    (amazons("x.."), 'Amazons("x..")', "2"),
    (toads("T.F"), 'Toads("T.F")', "*"),
    (strip(RULES, "x..o"), f'Strip("{RULES}","x..o")', "^"),
    (strip(RULES.split(";"), "x...o"), f'Strip("{RULES}","x...o")', "^^*"),
    (hackenbush("0b1,1r2,2r3"), 'Hackenbush("0b1,1r2,2r3")', "1/4"),
    (hackenbush(["0g1", "1b2"]), 'Hackenbush("0g1,1b2")', "^*"),
    (col("..", "ab"), 'Col("..","ab")', "0"),
    (snort("..", ["ab"]), 'Snort("..","ab")', "+-1"),
    (octal("0.77", 9), 'Octal("0.77",9)', "*4"),
]


class Boards(unittest.TestCase):
    """Each game's boards are the notation's."""

    def test_each_game(self) -> None:
        for game, expression, value in ROWS:
            with self.subTest(expression=expression):
                self.assertEqual(game.expression, expression)
                self.assertEqual(game.value, Value(value))
                self.assertEqual(Game(expression).board, game.board)
                self.assertIsNotNone(game._repr_svg_())
                self.assertIsNone(game._repr_latex_())

    def test_sums_of_boards_are_no_boards(self) -> None:
        total = domineering("..") + clobber("xo")
        self.assertIsNone(total.board)
        self.assertEqual(Board("Toads", ("T.F",)) - Game("*"), 0)
        self.assertIsNone(total._repr_svg_())
        self.assertIsNotNone(total._repr_latex_())

    def test_boards_that_are_refused(self) -> None:
        for game, cause in [
            (clobber("xo|o"), "the row that starts at place 4"),
            (clobber("xa"), "a symbol at place 2"),
            (domineering(""), "no cell"),
            (amazons("." * 65), "place 65"),
            (toads("T.|F."), "a symbol at place 3"),
            (hackenbush("0b"), "goes wrong at place 3"),
            (col(".", "ab"), "goes wrong at place 2"),
            (snort("." * 53, ""), "place 53"),
            (octal("0.78", 3), "goes wrong at place 4"),
            (octal("0.3", 1001), "more than 1,000 tokens"),
        ]:
            with self.subTest(game=str(game)):
                with self.assertRaisesRegex(Refused, cause) as caught:
                    self.assertIsNotNone(game.value)
                self.assertEqual(caught.exception.kind, "board")
                if game.board and game.board.game != "Octal":
                    self.assertIsNone(game._repr_svg_())
                    with self.assertRaisesRegex(WrongCall, "can't be drawn"):
                        game.board.svg()

    def test_wrong_calls(self) -> None:
        rows: list[tuple[Callable[[], object], str]] = [
            (lambda: domineering('..") + 5 + Toads("T'), "no quotation mark"),
            (lambda: clobber("x\u00f6"), "is no text of a board"),
            (lambda: clobber(5), "neither a text nor a list"),  # type: ignore[arg-type]
            (lambda: clobber(["x", 2]), r"\[1\] of a list of texts is none"),  # type: ignore
            (lambda: toads(None), "is no text of a board"),  # type: ignore[arg-type]
            (lambda: octal("0.77", -1), "a number such as 9"),
            (lambda: octal("0.77", "9"), "a number such as 9"),  # type: ignore[arg-type]
            (lambda: octal(0.77, 9), "is no text of a board"),  # type: ignore[arg-type]
            (lambda: Board("Chess", ("..",)), "none of the games Amazons, "),
        ]
        for call, message in rows:
            with self.assertRaisesRegex(WrongCall, message):
                call()

    def test_expressions_that_are_no_boards(self) -> None:
        for text in (
            "{1|0}",
            'Toads("T")^',
            'Col("..")',
            'Toads("T","F")',
            'Octal("0.7")',
            'Toads("T",3)',
        ):
            self.assertIsNone(read_board(text), text)
        self.assertEqual(read_board('Col ( ".." , "ab" )'), Board("Col", ("..", "ab")))


@unittest.skipUnless(shutil.which("rsvg-convert"), "rsvg-convert (librsvg2-bin) isn't there")
class Drawn(unittest.TestCase):
    """Pictures are drawn, with Left's stones blue and Right's red."""

    def test_stones_stand_in_their_cells(self) -> None:
        svg = clobber("xo.|.xo").board.svg()  # type: ignore[union-attr]
        png = rendered(svg, 1)
        for down, row in enumerate(["xo.", ".xo"]):
            for along, symbol in enumerate(row):
                wanted = {"x": colour(LEFT), "o": colour(RIGHT), ".": (255, 255, 255)}[symbol]
                self.assertEqual(png.pixel(25 + 30 * along, 25 + 30 * down), wanted, (down, along))

    def test_edges_have_their_colours(self) -> None:
        """A stalk stands upright, its first edge lowest; edges side by side are all seen."""
        png = rendered(hackenbush("0b1,1r2,2g3").board.svg(), 1)  # type: ignore[union-attr]
        middle = png.width // 2
        ground = png.height - 24
        for at, ink in enumerate((LEFT, RIGHT, EITHER)):
            self.assertEqual(png.pixel(middle, ground - 28 - 56 * at), colour(ink), ink)
        png = rendered(hackenbush("0b1,0r1,0g1,1b1").board.svg(), 1)  # type: ignore[union-attr]
        row = png.height - 24 - 28
        for ink in (LEFT, RIGHT, EITHER):
            self.assertTrue(png.columns(row, colour(ink)), ink)

    def test_every_kind_is_well_formed(self) -> None:
        games = [game for game, _, _ in ROWS]
        games += [snort(".x.o..", "ab,bc,cd,de,ef,fa,ad"), hackenbush("0b1,2r3,3g3,0g0,1b2,4r5")]
        games += [domineering("." * 64), octal("0.7", 0), col("." * 52, ""), amazons("x#|.o")]
        for game in games:
            svg = game._repr_svg_()
            assert svg is not None
            root = ElementTree.fromstring(svg)
            self.assertEqual([it.text for it in root.iter(f"{SVG}title")], [str(game)])
            png = rendered(svg, 1)
            self.assertGreater(png.width * png.height, 400)

    def test_hackenbush_of_any_shape(self) -> None:
        names = "0123456789ABCDEFGHIJKLMNOPQRSTUVWXYZ"
        for count in (1, 5, 17, 64):
            for step in (1, 2, 7, 11):
                edges = [
                    names[at * step % 36] + "brg"[at % 3] + names[(at * at + step) % 36]
                    for at in range(count)
                ]
                self.assertIsNotNone(hackenbush(edges)._repr_svg_(), edges)
