"""Pictures of thermographs, as they are seen: each is drawn, and looked at beside its corners."""
from __future__ import annotations

import shutil
import unittest
from fractions import Fraction
from typing import Iterator
from xml.etree import ElementTree

from cgcalc import Corner, Game, Session, Thermograph, WrongCall
from cgcalc.svg import INK, LEFT, RIGHT
from tests.places import ROOT, run
from tests.pixels import Pixel, Pixels, rendered

SVG = "{http://www.w3.org/2000/svg}"
ZOOM = 2
THREE = {
    "domineering": 'Domineering("...|...")',
    "sente": "{4||2|-4}",
    "two-sided": "{{{20|2}|1}|{-1||-2|-30}}",
}
STONES = ".=0,0,0;x=0,0,1;o=0,1,0;L:x.>.x;L:x..>..x;R:.o>o."
ENDGAME = ".#......|.###....|.#.#####|.#.#....|##..#...|....#...|###.###.|..#...#."
STUDIES = "examples/studies/pictures"
TWO_ROWS = [f'Domineering("{row}|{row}")' for row in ("...", "........")]
DRAWN = {
    "docs/pictures/board.svg": ["--board", 'Domineering("...|...")'],
    "docs/pictures/rooms.svg": ["--board", 'Domineering("..#..#.|..#..#.|..#####")'],
    "docs/pictures/stones.svg": ["--board", f'Strip("{STONES}","x...o")'],
    f"{STUDIES}/amazons.svg": ["--board", 'Amazons("x.|..|.o")'],
    f"{STUDIES}/clobber.svg": ["--board", 'Clobber("xox|oxo")'],
    f"{STUDIES}/domineering.svg": [*TWO_ROWS, "--height", "200"],
    f"{STUDIES}/endgame.svg": ["--board", f'Domineering("{ENDGAME}")'],
    f"{STUDIES}/kayles.svg": ["--board", 'Octal("0.77",9)'],
    f"{STUDIES}/snort.svg": ["--board", 'Snort(".....","ab,ac,ad,ae")'],
    f"{STUDIES}/stalks.svg": ["--board", 'Hackenbush("0b1,1b2,2r3,3b4,4r5")'],
    f"{STUDIES}/toads.svg": ["--board", 'Toads("TT..FF")'],
}
"""Pictures of pages, and the words with which `cg-plot` draws them."""
EXPRESSIONS = [
    *THREE.values(),
    *("1/2", "^", "{1000|-1000}", "{3|1||0|-5}", "{10|9||0|-1} + {3||1|0}", "{9|-{8|-1/8}}"),
    *("{4||2|0}", "18446744073709551615", 'Domineering(".....|.....|.....")'),
]


def colour(text: str) -> Pixel:
    """A colour such as #1f5fbf."""
    return int(text[1:3], 16), int(text[3:5], 16), int(text[5:7], 16)


class Seen:
    """A picture, and where in it values and temperatures are, as its two axes tell."""

    def __init__(self, thermograph: Thermograph) -> None:
        self.svg = thermograph.svg(height=130)
        self.root = ElementTree.fromstring(self.svg)
        self.png: Pixels = rendered(self.svg, ZOOM)
        self.shift = sum(
            float(group.attrib["transform"][len("translate(") :].split(",")[0])
            for group in self.root.iter(f"{SVG}g")
            if "transform" in group.attrib
        )
        values = list(self.ticks("value-tick", "x", self.shift))
        temperatures = list(self.ticks("temperature-tick", "y", -4))
        (self.value, self.x), (other, x) = values[0], values[-1]
        self.wide = (x - self.x) / float(other - self.value) if other != self.value else 0.0
        (_, self.foot), (temperature, y) = temperatures[0], temperatures[-1]
        self.tall = (y - self.foot) / float(temperature)

    def texts(self, kind: str) -> list[ElementTree.Element]:
        """The texts of a kind."""
        return [text for text in self.root.iter(f"{SVG}text") if text.get("class") == kind]

    def ticks(self, kind: str, axis: str, shift: float) -> Iterator[tuple[Fraction, float]]:
        """The numbers beside an axis, and their places."""
        for text in self.texts(kind):
            yield Fraction(text.text or ""), float(text.attrib[axis]) + shift

    def place(self, value: Fraction, temperature: Fraction) -> tuple[float, float]:
        """Where a wall with a value at a temperature has to be."""
        x = self.x + float(value - self.value) * self.wide
        return x, self.foot + float(temperature) * self.tall


@unittest.skipUnless(shutil.which("rsvg-convert"), "rsvg-convert (librsvg2-bin) isn't there")
class Pictures(unittest.TestCase):
    """Walls, masts, labels and axes stand where the corners say."""

    thermographs: dict[str, Thermograph]
    pictures: dict[str, Seen]

    @classmethod
    def setUpClass(cls) -> None:
        replies = Session(share=65_536).ask(f"thermo {text}" for text in EXPRESSIONS)
        asked = zip(EXPRESSIONS, replies)
        cls.thermographs = {text: it for text, it in asked if isinstance(it, Thermograph)}
        cls.pictures = {text: Seen(it) for text, it in cls.thermographs.items()}

    def test_all_are_there(self) -> None:
        self.assertEqual(list(self.thermographs), EXPRESSIONS)

    def test_walls_are_where_the_corners_are(self) -> None:
        for text, thermograph in self.thermographs.items():
            seen = self.pictures[text]
            top = thermograph.temperature
            for part in range(1, 16):
                temperature = top * part / 16
                if temperature <= 0:
                    continue
                walls = thermograph.at(temperature)
                for value, ink in ((walls.left, LEFT), (walls.right, RIGHT)):
                    x, y = seen.place(value, temperature)
                    found = seen.png.columns(round(y * ZOOM), colour(ink))
                    with self.subTest(text=text, temperature=temperature, ink=ink):
                        self.assertTrue(
                            any(abs(column / ZOOM - x) < 2.5 for column in found),
                            f"no wall at {x}, but at {[column / ZOOM for column in found]}",
                        )

    def test_the_mast_stands_on_the_walls(self) -> None:
        for text, thermograph in self.thermographs.items():
            seen = self.pictures[text]
            foot = max(thermograph.temperature, Fraction(0))
            for part in range(1, 8):
                x, y = seen.place(thermograph.mean, foot)
                up = y - (y - 40) * part / 8
                if seen.wide:
                    found = seen.png.columns(round(up * ZOOM), colour(INK))
                    with self.subTest(text=text, part=part):
                        self.assertTrue(any(abs(column / ZOOM - x) < 2.5 for column in found))

    def test_left_is_to_the_left(self) -> None:
        for text, thermograph in self.thermographs.items():
            seen = self.pictures[text]
            self.assertLessEqual(seen.wide, 0, text)
            self.assertLess(seen.tall, 0, text)
            self.assertTrue(seen.wide == 0 or abs(seen.wide - seen.tall) < 0.01 * -seen.tall, text)

    def test_each_corner_has_its_label(self) -> None:
        for text, thermograph in self.thermographs.items():
            seen = self.pictures[text]
            corners = thermograph.left[:-1] + thermograph.right
            labels = [label.text for label in seen.texts("corner")]
            self.assertEqual(labels, [str(corner) for corner in corners], text)

    def test_texts_stay_inside_and_apart(self) -> None:
        for text, thermograph in self.thermographs.items():
            seen = self.pictures[text]
            width = float(seen.root.attrib["width"])
            places = []
            for label in seen.texts("corner"):
                x, y = float(label.attrib["x"]) + seen.shift, float(label.attrib["y"])
                wide = 7.2 * len(label.text or "")
                start = x if label.attrib["text-anchor"] == "start" else x - wide
                self.assertTrue(0 < start and start + wide < width, text)
                places.append((start, start + wide, y))
            for at, (start, end, y) in enumerate(places):
                for first, last, other in places[at + 1 :]:
                    apart = end <= first or last <= start or abs(y - other) >= 12
                    self.assertTrue(apart, f"{text}: two labels at {y} and {other}")

    def test_the_pictures_of_the_manual(self) -> None:
        for name, text in THREE.items():
            path = ROOT / "docs" / "pictures" / f"{name}.svg"
            self.assertEqual(path.read_text(), self.thermographs[text].svg(title=text), name)
            self.assertLess(path.stat().st_size, 6_000)
            manual = (ROOT / "docs" / "LANGUAGE.md").read_text()
            self.assertEqual(manual.count(f"(pictures/{name}.svg)"), 1)

    def test_the_pictures_that_cg_plot_draws(self) -> None:
        for path, words in DRAWN.items():
            self.assertEqual(run("cg-plot", words), (0, (ROOT / path).read_text(), ""), path)


class Thermographs(unittest.TestCase):
    """What a thermograph tells beside its picture."""

    def test_walls_at_a_temperature(self) -> None:
        thermograph = Game("{4||2|0}").thermograph
        rows: list[tuple[object, object, object]] = [
            (0, 4, 2),
            (Fraction(1, 2), Fraction(7, 2), 2),
            (1, 3, 2),
            (1.25, Fraction(11, 4), Fraction(9, 4)),
            (Fraction(3, 2), Fraction(5, 2), Fraction(5, 2)),
            (100, Fraction(5, 2), Fraction(5, 2)),
        ]
        for temperature, left, right in rows:
            walls = thermograph.at(temperature)  # type: ignore[arg-type]
            self.assertEqual((walls.left, walls.right), (left, right))
        for corner in thermograph.left:
            self.assertEqual(thermograph.at(corner.temperature).left, corner.value)

    def test_wrong_temperatures(self) -> None:
        thermograph = Game("*").thermograph
        for wrong in (-1, Fraction(-1, 64), "1 0", None, float("nan"), float("inf")):
            with self.assertRaises(WrongCall):
                thermograph.at(wrong)  # type: ignore[arg-type]

    def test_titles_are_text(self) -> None:
        svg = Game("{1|-1}").thermograph.svg(title='<b> & "x"', height=120)
        root = ElementTree.fromstring(svg)
        self.assertIn('<b> & "x"', [text.text for text in root.iter(f"{SVG}text")])
        self.assertEqual(root.attrib["role"], "img")
        for wrong in (0, -3, 10**6, "a"):
            with self.assertRaisesRegex(WrongCall, "from 40 to 4000"):
                Game("*").thermograph.svg(height=wrong)  # type: ignore[arg-type]

    def test_notebooks_show_it(self) -> None:
        corner = Corner(Fraction(0), Fraction(0))
        thermograph = Thermograph(Fraction(0), Fraction(0), (corner,), (corner,))
        self.assertEqual(thermograph._repr_svg_(), Game("^").thermograph.svg())
