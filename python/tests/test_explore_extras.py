"""The explorer's page beyond the board: games, the worksheet, links, frames, exports."""
from __future__ import annotations

import http.server
import subprocess
import tempfile
import threading
import unittest
from functools import partial
from pathlib import Path

from cgcalc import Definition, Session, find_program
from tests.explorer_case import KEYS, PageCase
from tests.places import ROOT


CONTROLS = ("button", "checkbox", "combobox", "gridcell", "image", "link", "radio", "textbox")
FOCUSED = """const focus = document.activeElement;
const shown = getComputedStyle(focus.matches('.segments input') ? focus.nextElementSibling : focus);
return [focus.getAttribute('aria-label') || focus.id || focus.outerHTML,
  `${shown.outlineStyle} ${shown.outlineWidth}`];"""


class Quiet(http.server.SimpleHTTPRequestHandler):
    """Serves a folder, and tells nothing."""

    def log_message(self, *_: object) -> None:
        """Nothing."""


def answered(session: str) -> tuple[int, str]:
    """The status of the program, and what it answers to a session."""
    done = subprocess.run(
        [find_program()], input=session.encode(), capture_output=True, check=False
    )
    return done.returncode, done.stdout.decode()


class Extras(PageCase):
    """What a visitor plays, types, opens and takes along."""

    def test_a_game_is_won_by_the_hints(self) -> None:
        self.open('Domineering("....|....")', 'Domineering(".|.|.")', "-2")
        self.browser.idle()
        winner = Session().outcome('Domineering("....|....") + Domineering(".|.|.") - 2')
        person = {"N": "L", "L": "L", "R": "R"}[winner]
        self.browser.click("#play summary")
        for name in ("person", "first"):
            self.browser.click(f"#play label:has(> [name={name}][value={person}])")
        self.browser.click("#start")
        moves = 0
        while "can’t move" not in self.browser.text("#turn") and moves < 20:
            self.browser.until(lambda: self.is_my_turn(), "my turn")
            if "can’t move" in self.browser.text("#turn"):
                break
            self.browser.click("#hint-button")
            self.browser.until(lambda: "You win with" in self.browser.text("#said"), "a hint")
            name = (
                self.browser.text("#said").split("You win with ")[1].split(", and")[0].rstrip(".")
            )
            part, _, move = name.removeprefix("part ").rpartition(", ")
            place = f"[data-part='{int(part or 1) - 1}'][data-move='{move}']"
            side = {"L": "left", "R": "right"}[person]
            self.browser.click(f"#{side}-moves {place}")
            moves += 1
            self.browser.idle()
        self.assertIn("you win", self.browser.text("#turn"))
        self.assertGreater(moves, 1)
        record = str(
            self.browser.script(
                "return Promise.all([import('./play.js'), import('./state.js')])"
                ".then(([play, it]) => play.recordText(it.state.game))"
            )
        )
        status, written = answered(record)
        self.assertEqual((status, "!" in written), (0, False), record)
        self.assertEqual(written.count("\n"), record.count("value "))

    def is_my_turn(self) -> bool:
        """Whether the person is to move, or the game is over."""
        turn = self.browser.text("#turn")
        ready = self.browser.script("return !document.querySelector('#hint-button').disabled")
        return ("Your move" in turn and bool(ready)) or "can’t move" in turn

    def test_the_study_of_an_endgame(self) -> None:
        self.open("^")
        self.browser.value_is("^")
        self.choose_new("endgame")
        session = Session()
        lines = (ROOT / "examples" / "studies" / "endgame.cg").read_text().splitlines()
        for line in lines:
            definition = Definition.read(line)
            if definition:
                session.bind(definition)
        self.browser.value_is(str(session.value("column + top + snake + hall + corner")))
        hot = self.browser.all(".move .hot")
        parts = set(self.browser.attributes(".move:has(.hot)", "data-part"))
        self.assertTrue(hot)
        self.assertEqual(parts, {"3"})  # the hall

    def test_each_control_has_a_name_and_shows_that_it_has_the_focus(self) -> None:
        self.open('Clobber("xo|ox")', 'Hackenbush("0b1,1r2")', 'Snort("...","ab,bc")', "{2|-1}")
        self.browser.idle()
        for name in ("play", "sheet", "save", "help"):
            self.browser.click(f"#{name} summary")
        nodes = self.browser.driver.execute_cdp_cmd("Accessibility.getFullAXTree", {})["nodes"]
        controls = [
            node
            for node in nodes
            if not node["ignored"] and node.get("role", {}).get("value") in CONTROLS
        ]
        self.assertGreater(len(controls), 60)
        nameless = [node for node in controls if not node.get("name", {}).get("value", "").strip()]
        self.assertEqual(nameless, [])
        self.browser.script("document.querySelector('.skip').focus()")
        seen = set()
        for _ in range(30):
            self.browser.keys(KEYS["tab"])
            what, outline = self.browser.script(FOCUSED)
            self.assertEqual(outline, "solid 3px", what)
            seen.add(what)
        self.assertGreater(len(seen), 20, seen)

    def test_in_a_frame_of_another_page(self) -> None:
        from cgcalc.explore import explore

        shown = explore('Domineering("..|..")')
        self.addCleanup(shown.close)
        with tempfile.TemporaryDirectory() as folder:
            self.open_elsewhere(folder, shown._repr_html_())
            self.browser.driver.switch_to.frame(self.browser.one("iframe"))
            self.browser.value_is("+-1")
            self.browser.click("#left-moves .move")
            self.browser.value_is("1")
            self.browser.driver.switch_to.default_content()
        self.assertEqual(shown.position.value.name, "1")

    def open_elsewhere(self, folder: str, text: str) -> None:
        """Opens a page of another site."""
        (Path(folder) / "index.html").write_text(text)
        serving = http.server.ThreadingHTTPServer(
            ("127.0.0.1", 0), partial(Quiet, directory=folder)
        )
        threading.Thread(target=serving.serve_forever, daemon=True).start()
        self.addCleanup(serving.server_close)
        self.addCleanup(serving.shutdown)
        self.browser.open(f"http://localhost:{serving.server_port}/")

    def test_a_link_of_another_site(self) -> None:
        self.open("^")
        self.browser.value_is("^")
        link = f"http://127.0.0.1:{self.server.port}/#g=%7B2%7C-1%7D"
        with tempfile.TemporaryDirectory() as folder:
            self.open_elsewhere(folder, f'<a href="{link}">a position</a>')
            self.browser.click("a")
            self.browser.until(lambda: "needs its key" in self.browser.text("h1"), "the key's page")
            self.browser.complaints()  # that the page was refused
            self.browser.click("#on")
            self.browser.value_is("{2|-1}")
        self.assertNotIn("again", str(self.browser.script("return location.search")))

    def test_a_link_opens_a_position(self) -> None:
        self.open('-Toads("TT.FF")', "{4||2|0}")
        self.browser.value_is(str(Session().value('{4||2|0} - Toads("TT.FF")')))
        self.assertNotIn("key", str(self.browser.script("return location.href")))
        self.browser.script("location.hash = '#g=Clobber(%22xxo%22)'")
        self.browser.value_is("^")

    def test_the_worksheet(self) -> None:
        self.open('Toads("TT.FF")')
        self.browser.idle()
        self.browser.click("#sheet summary")
        self.browser.until(
            lambda: "mean" in self.browser.text("#sheet .lines li:nth-child(2)"), "answers"
        )
        self.browser.click("#sheet [data-line='1']")
        self.browser.keys(KEYS["enter"])
        self.browser.until(lambda: len(self.browser.all("#sheet [data-line]")) == 3, "a new line")
        self.browser.click("#sheet [data-line='2']")
        self.browser.keys("compare g ; *", KEYS["enter"])
        self.browser.until(
            lambda: self.browser.text("#sheet li:nth-child(3) output") == "||", "the answer"
        )
        self.browser.click("#position-line")
        self.browser.until(lambda: "Toads" in self.sheet()[3], "the position")
        with tempfile.NamedTemporaryFile("w", suffix=".cg", delete=False) as file:
            file.write("cg 2\nh := {1|-1}\nvalue h + h\n")
        self.addCleanup(Path(file.name).unlink)
        self.browser.all("#load-sheet")[0].send_keys(file.name)
        self.browser.until(
            lambda: self.browser.text("#sheet li:nth-child(3) output").startswith("0"), "0"
        )
        self.assertEqual(self.sheet()[:3], ["cg 2", "h := {1|-1}", "value h + h"])
        with tempfile.TemporaryDirectory() as folder:
            self.browser.saves_to(folder)
            self.browser.click("#save-sheet")
            saved = Path(folder) / "session.cg"
            self.browser.until(saved.exists, "the session")
            self.assertEqual(answered(saved.read_text()), (0, "2: +-1\n3: 0\n"))

    def test_the_worksheet_completes_words(self) -> None:
        self.open("^")
        self.browser.idle()
        self.browser.click("#sheet summary")
        self.browser.click("#sheet [data-line='1']")
        self.browser.keys("a", held=KEYS["control"])
        self.browser.keys("th", KEYS["tab"])
        self.browser.until(lambda: self.sheet()[1] == "thermo ", "the word")
        self.browser.keys("g", KEYS["enter"])
        self.browser.until(
            lambda: "mean" in self.browser.text("#sheet li:nth-child(2) output"), "the answer"
        )

    def test_each_game_begins_with_a_position_that_is_answered(self) -> None:
        self.open("^")
        self.browser.value_is("^")
        games: list[str] = self.browser.script(
            "return [...document.querySelectorAll('#new option')].map((one) => one.value)"
        )
        self.assertEqual(len(games), 12)  # nine games, other forms, a study, and the menu's name
        for game in filter(None, games):
            self.browser.script("document.getElementById('live').textContent = ''")
            self.choose_new(game)
            self.browser.until(lambda: self.browser.text("#live").startswith("Value"), game)

    def choose_new(self, game: str) -> None:
        """Begins a new position."""
        self.browser.script(
            "const menu = document.getElementById('new'); menu.value = arguments[0];"
            "menu.dispatchEvent(new Event('change'))",
            game,
        )

    def test_strips_and_heaps(self) -> None:
        self.open('Strip(".=1,0,0;A=0,0,0;L:..>AA;R:.>A","...")', 'Octal("0.7",3)')
        session = Session()
        self.browser.value_is(
            str(session.value('Strip(".=1,0,0;A=0,0,0;L:..>AA;R:.>A","...") + Octal("0.7",3)'))
        )
        self.change("0:rules", ".=1,0,0;A=0,0,0;L:.>A;R:..>AA")
        self.change("1:code", "0.77")
        self.change("1:tokens", "5")
        self.browser.click("#parts .card:nth-of-type(1) [data-focus='0:more Cells']")
        whole = 'Strip(".=1,0,0;A=0,0,0;L:.>A;R:..>AA","....") + Octal("0.77",5)'
        self.browser.value_is(str(session.value(whole)))
        self.browser.choose("#mode", "R")
        self.browser.click(self.cell("a1"))
        self.browser.value_is(str(session.value(whole.replace("....", "AA.."))))

    def change(self, field: str, text: str) -> None:
        """Types a text in a field in place of what it has."""
        self.browser.click(f"[data-focus='{field}']")
        self.browser.keys("a", held=KEYS["control"])
        self.browser.keys(text, KEYS["enter"])

    def sheet(self) -> list[str]:
        """The lines of the worksheet."""
        found: list[str] = self.browser.script(
            "return [...document.querySelectorAll('#sheet [data-line]')].map((one) => one.value)"
        )
        return found

    def test_exports(self) -> None:
        self.open('Domineering("...|...")', "{2|-1}")
        self.browser.idle()
        self.browser.click("#save summary")
        self.browser.one("#latex")
        value = "return document.getElementById(arguments[0]).value"
        self.assertIn("%7B2%7C-1%7D", self.browser.script(value, "address"))
        self.assertEqual(
            self.browser.script(value, "python"),
            "from cgcalc import Game, domineering\n\n"
            'g = domineering("...|...") + Game("{2|-1}")\n',
        )
        self.assertIn(r"\mid", self.browser.script(value, "latex"))
        with tempfile.TemporaryDirectory() as folder:
            self.browser.saves_to(folder)
            self.browser.click("#png-position")
            png = Path(folder) / "position.png"
            self.browser.until(png.exists, "the picture")
            self.assertTrue(png.read_bytes().startswith(b"\x89PNG\r\n"))
        kept = self.browser.script("return import('./save.js').then(it => it.sessionText())")
        self.assertEqual(answered(str(kept))[0], 0)
        drawn = self.browser.script("return import('./save.js').then(it => it.positionPicture())")
        self.assertEqual(drawn.count('class="cell"'), 6)


if __name__ == "__main__":
    unittest.main()
