"""The explorer's page: drawing, moving, adding up, limits, keys, widths, in a browser."""
from __future__ import annotations

import tempfile
import unittest
from pathlib import Path

from cgcalc import Session
from tests.explorer import Server, moves_of
from tests.explorer_case import KEYS, PageCase
from tests.places import program

TWO_ROOMS = ('Domineering("...|...")', 'Domineering("..|..")')


class Page(PageCase):
    """What a visitor draws and sees."""

    def test_a_board_is_drawn_cell_by_cell(self) -> None:
        self.open('Domineering("...|...")')
        self.browser.value_is("{2|-1/2}")
        for name in ("a1", "c1", "a2", "c2"):
            self.browser.click(self.cell(name))
        self.browser.value_is("1")
        self.assertEqual(
            self.browser.script("return location.hash"), "#g=Domineering(%22%23.%23%7C%23.%23%22)"
        )
        self.browser.click(self.cell("a1"))
        self.browser.click("button[aria-label='One column more']")
        self.assertEqual(self.browser.value(".notation input"), 'Domineering("..#.|#.#.")')
        self.browser.value_is(str(Session().value('Domineering("..#.|#.#.")')))

    def test_a_move_is_made_and_taken_back(self) -> None:
        self.open('Domineering("...|...")')
        self.browser.value_is("{2|-1/2}")
        self.assertEqual(moves_of(self.browser, "L"), ["a1-a2", "b1-b2", "c1-c2"])
        self.browser.click("#left-moves [data-move='b1-b2']")
        self.browser.value_is("2")
        self.assertEqual(len(self.browser.all("#path li")), 2)
        self.browser.click("#undo")
        self.browser.value_is("{2|-1/2}")
        self.browser.click("#redo")
        self.browser.value_is("2")
        self.browser.click("#path li:first-child button")
        self.browser.value_is("{2|-1/2}")

    def test_moves_on_the_board(self) -> None:
        self.open('Clobber("xo|ox")')
        self.browser.idle()
        self.browser.choose("#mode", "L")
        self.browser.click(self.cell("a1"))
        self.browser.click(self.cell("b1"))
        self.browser.until(
            lambda: "Clobber%28%22.x" in self.hash() or ".x%7Cox" in self.hash(), "the move"
        )
        self.browser.idle()

    def test_marks_say_why(self) -> None:
        self.open('Domineering("...|...")')
        self.browser.value_is("{2|-1/2}")
        self.browser.one("#left-moves [data-move='a1-a2'] .why")
        why = self.browser.attributes("#left-moves [data-move='a1-a2'] .why", "title")
        self.assertEqual(why, ["dominated by b1-b2"])
        self.browser.one("#left-moves [data-move='b1-b2'] .wins")
        self.browser.one("#left-moves [data-move='b1-b2'] .hot")
        self.assertIn("Checked", self.browser.text("#checked"))

    def test_moves_are_shortened_and_put_in_order(self) -> None:
        self.open('Domineering("...|...")')
        self.browser.value_is("{2|-1/2}")
        shown = {"each": ["a1-a2", "b1-b2"], "canonical": ["b1-b2"], "wins": ["b1-b2"]}
        for word, names in shown.items():
            self.browser.choose("#filter", word)
            self.browser.until(lambda: moves_of(self.browser, "L") == names, word)
        self.assertEqual(self.browser.text("#left-title"), "Left’s moves (1 of 3)")
        self.browser.choose("#filter", "all")
        self.browser.click("#best input")
        best = ["b1-b2", "a1-a2", "c1-c2"]
        self.browser.until(lambda: moves_of(self.browser, "L") == best, "the best first")

    def test_the_players_take_turns(self) -> None:
        self.open('Domineering("...|...")')
        self.browser.idle()
        self.browser.choose("#mode", "L")
        self.browser.click("#turns input")
        self.browser.click(self.cell("a1"))
        self.browser.value_is(str(Session().value('Domineering("#..|#..")')))
        self.browser.click(self.cell("b1"))
        self.browser.value_is(str(Session().value('Domineering("###|#..")')))
        self.assertEqual(
            self.browser.script("return document.querySelector('#mode :checked').value"), "L"
        )

    def test_a_sum(self) -> None:
        self.open(*TWO_ROOMS)
        whole = str(Session().value(" + ".join(TWO_ROOMS)))
        self.browser.value_is(whole)
        self.browser.script(
            "const add = document.getElementById('add'); add.value = 'Toads';"
            "add.dispatchEvent(new Event('change'))"
        )
        self.browser.until(lambda: len(self.browser.all("#parts .card")) == 3, "three cards")
        whole = str(Session().value(" + ".join((*TWO_ROOMS, 'Toads("TTT..FFF")'))))
        self.browser.value_is(whole)
        self.browser.click("button[aria-label='Remove part 3']")
        self.browser.value_is(str(Session().value(" + ".join(TWO_ROOMS))))
        labels = self.browser.attributes(".move", "aria-label")
        self.assertTrue(all("; then " not in label or "in part" in label for label in labels))
        self.assertTrue(
            any(
                "Left in part 1, b1-b2; leaves 2, temperature -1, then" in label for label in labels
            ),
            labels,
        )

    def test_a_refusal_shows_its_place(self) -> None:
        self.open('Domineering("..|.x")')
        self.browser.one("#trouble")
        self.assertIn("! board symbol 5", self.browser.text("#trouble"))
        self.browser.one(".cell.wrong")
        (wrong,) = self.browser.attributes(".cell.wrong", "aria-label")
        self.assertTrue(wrong.startswith("b2:"))
        self.open("{2|-1", "1")
        self.browser.until(lambda: "! syntax" in self.browser.text("#trouble"), "the refusal")
        self.assertIn("Part 1", self.browser.text("#trouble"))
        self.open('Col("..","ac")')
        self.browser.until(lambda: self.browser.text(".spot mark") == "c", "the place")

    def test_a_limit_is_named_and_raised(self) -> None:
        server = Server("--positions", "30")
        self.addCleanup(server.end)
        self.browser.open(server.link('Domineering("...|...|...")'))
        self.browser.until(lambda: "30 positions" in self.browser.text("#trouble"), "the limit")
        self.browser.click("#harder")
        self.browser.until(lambda: "Value" in self.browser.text("#live"), "the value")

    def test_a_long_question_is_stopped(self) -> None:
        folder = tempfile.TemporaryDirectory()
        self.addCleanup(folder.cleanup)
        slow = program(Path(folder.name), 'sleep 60\nexec "$REAL" "$@"')
        server = Server(changes={"CG": slow})
        self.addCleanup(server.end)
        self.browser.open(server.link('Toads("T.F")'))
        self.browser.click("#stop")
        self.browser.until(lambda: "you stopped it" in self.browser.text("#trouble"), "the stop")
        self.browser.until(
            lambda: self.browser.script("return document.querySelector('#running').hidden"),
            "nothing that runs",
        )

    def test_moves_are_made_before_their_values_are_known(self) -> None:
        folder = tempfile.TemporaryDirectory()
        self.addCleanup(folder.cleanup)
        server = Server(changes={"CG": program(Path(folder.name), "sleep 60")})
        self.addCleanup(server.end)
        self.browser.open(server.link('Toads("TT.FF")'))
        self.browser.one("#left-moves .move")
        self.assertIn("isn’t known yet", self.browser.text("#checked"))
        self.browser.click("#left-moves [data-move='2-3']")
        self.browser.until(lambda: "T.TFF" in self.hash(), "the move")
        self.browser.choose("#mode", "R")
        self.browser.until(lambda: self.browser.all(".cell.can"), "Right's moves")
        self.browser.click(self.cell("d1"))
        self.browser.click(self.cell("b1"))
        self.browser.until(lambda: "TFT.F" in self.hash(), "a move on the board")

    def test_drawings(self) -> None:
        self.open('Hackenbush("0b1,1r2")')
        self.browser.value_is("1/2")
        self.browser.choose("#brush", "r")
        self.browser.click(".sketch [data-focus='0:v2']")
        self.browser.click(".sketch [data-focus='0:v1']")
        self.browser.value_is(str(Session().value('Hackenbush("0b1,1r2,2r1")')))
        self.browser.choose("#mode", "L")
        self.browser.script("document.querySelector(\".sketch [data-focus='0:e0']\").focus()")
        self.browser.keys(KEYS["enter"])
        self.browser.value_is("0")

    def test_graphs(self) -> None:
        self.open('Snort("...","ab,bc")')
        self.browser.idle()
        self.browser.choose("#brush", "edge")
        self.browser.click(".sketch [data-focus='0:va']")
        self.browser.click(".sketch [data-focus='0:vc']")
        self.browser.value_is(str(Session().value('Snort("...","ab,bc,ca")')))
        self.browser.choose("#brush", "x")
        self.browser.click(".sketch [data-focus='0:vb']")
        self.browser.value_is(str(Session().value('Snort(".x.","ab,bc,ca")')))
        self.browser.click("[data-focus='0:more']")
        self.browser.until(lambda: "x.x" in self.hash(), "a vertex more")
        self.assertEqual(self.browser.value(".notation input"), 'Snort(".x.x","ab,bc,ac")')

    def test_dragging(self) -> None:
        self.open('Domineering("....|....")')
        self.browser.idle()
        size = "return Math.round(document.querySelector(arguments[0]).offsetWidth)"
        wide = int(self.browser.script(size, self.cell("a1")))
        self.browser.drag(self.cell("a1"), (wide, 0), (wide, 0))
        self.browser.until(lambda: "%23%23%23." in self.hash(), "three cells")
        self.browser.click("#undo")
        self.browser.until(lambda: "%23" not in self.hash()[1:], "one step back")
        self.open('Snort("...","ab,bc")')
        self.browser.idle()
        self.browser.choose("#brush", "move")
        before = self.height_of_b()
        self.browser.drag(".sketch [data-focus='0:vb'] circle", (10, 20), (0, 20))
        self.browser.until(lambda: self.height_of_b() > before + 20, "a lower vertex")
        self.open('Hackenbush("0b1")')
        self.browser.idle()
        self.browser.drag(".sketch")
        self.browser.until(lambda: "0b1%2C0b2" in self.hash(), "an edge more")

    def height_of_b(self) -> float:
        """How far down the vertex b stands."""
        circle = "document.querySelector(\".sketch [data-focus='0:vb'] circle\")"
        return float(self.browser.script(f"return {circle}.getAttribute('cy')"))

    def test_keys_alone(self) -> None:
        self.open('Domineering("..|..")')
        self.browser.value_is("+-1")
        self.browser.script("document.querySelector('.cell').focus()")
        self.browser.keys(KEYS["right"], KEYS["down"], KEYS["enter"])
        self.browser.value_is("*")
        focus = "return document.activeElement.getAttribute('aria-label')"
        self.assertEqual(self.browser.script(focus), "b2: filled")
        self.browser.keys("z", held=KEYS["control"])
        self.browser.value_is("+-1")
        self.browser.script("document.querySelector('#right-moves .move').focus()")
        self.browser.keys(KEYS["enter"])
        self.browser.value_is("-1")
        self.assertEqual(self.browser.script(focus).split(";")[0], "Right a2-b2")
        self.browser.script("document.querySelector('[aria-label=\"One row more\"]').focus()")
        self.browser.keys(KEYS["enter"], KEYS["enter"])
        self.browser.until(lambda: "%23%23%7C..%7C..%7C.." in self.hash(), "two rows more")
        self.assertEqual(self.browser.script(focus), "One row more")

    def test_both_widths_and_both_schemes(self) -> None:
        for width in (360, 1400):
            for scheme in ("light", "dark"):
                self.browser.size(width, 900)
                self.browser.scheme(scheme)
                self.open(*TWO_ROOMS, 'Hackenbush("0b1,1r2,0g3")')
                self.browser.idle()
                wide = self.browser.script("return document.documentElement.scrollWidth")
                self.assertLessEqual(wide, width, scheme)

    def test_the_picture_has_the_corners_of_the_walls(self) -> None:
        text = 'Domineering("...|...") + {4||2|0}'
        self.open('Domineering("...|...")', "{4||2|0}")
        self.browser.value_is(str(Session().value(text)))
        thermograph = Session().thermograph(text)
        lines = [self.points(f"#thermograph .{side}-wall") for side in ("left", "right")]
        walls = [thermograph.left, thermograph.right]
        (x0, y0), (_, y1) = lines[0][0], lines[0][-1]
        foot, top = walls[0][0], walls[0][-1]
        scale = (y0 - y1) / float(top.temperature - foot.temperature)
        for line, wall in zip(lines, walls):
            self.assertEqual(len(line), len(wall))
            for (x, y), corner in zip(line, wall):
                self.assertAlmostEqual(y0 - y, scale * float(corner.temperature), delta=0.1)
                self.assertAlmostEqual(x - x0, scale * float(foot.value - corner.value), delta=0.1)

    def points(self, selector: str) -> list[tuple[float, float]]:
        """The points of a line of the picture."""
        found = self.browser.script(
            "return document.querySelector(arguments[0]).getAttribute('points')", selector
        )
        pairs = [point.split(",") for point in found.split(" ")]
        return [(float(x), float(y)) for x, y in pairs]


if __name__ == "__main__":
    unittest.main()
