"""The command cg-plot."""
from __future__ import annotations

import os
import subprocess
import tempfile
import unittest
from pathlib import Path
from xml.etree import ElementTree

from cgcalc import Game
from cgcalc.version import VERSION
from tests.places import command, environment, program, run
from tests.test_pictures import SVG


def titles(svg: str) -> list[str]:
    """What the pictures side by side show."""
    root = ElementTree.fromstring(svg)
    found = [title.text or "" for title in root.iter(f"{SVG}title")]
    return found[1:]


class Plots(unittest.TestCase):
    """Pictures on standard output and in files, and what is refused."""

    def setUp(self) -> None:
        holder = tempfile.TemporaryDirectory()
        self.addCleanup(holder.cleanup)
        self.folder = Path(holder.name)

    def test_pictures_side_by_side(self) -> None:
        status, written, told = run("cg-plot", ["{4||2|0}", "3/4"])
        self.assertEqual((status, told), (0, ""))
        first, second = titles(written)
        self.assertEqual(first, "{4||2|0}. Thermograph: mean 5/2, temperature 3/2")
        self.assertTrue(second.startswith("3/4. "))

    def test_a_file(self) -> None:
        path = self.folder / "plot.svg"
        words = ["{2|0}", "--untitled", "--height", "100", "--output", str(path)]
        self.assertEqual(run("cg-plot", words), (0, "", ""))
        self.assertIn(Game("{2|0}").thermograph.svg(height=100)[-2_000:-30], path.read_text())
        self.assertEqual(os.listdir(self.folder), ["plot.svg"])

    def test_boards(self) -> None:
        boards = ['Hackenbush("0b1,1r2")', 'Snort("..","ab")']
        status, written, told = run("cg-plot", ["--board", *boards])
        self.assertEqual((status, titles(written), told), (0, boards, ""))

    def test_refusals_and_bad_use(self) -> None:
        rows: list[tuple[list[str], int, str]] = [
            (["{1,2}"], 1, "no line of the notation goes on like this at column 12"),
            (["*70", "--share", "5"], 1, "more than its share of the table"),
            (["6/3"], 1, "its denominator isn't a power of two"),
            (["1 ; 2"], 2, "isn't one expression"),
            ([], 2, "the following arguments are required: E"),
            (["1", "--height", "5"], 2, "--height is a number from 40 to 4000"),
            (["1", "--share", "0"], 2, "share must be a number from 1"),
            (["1", "--wrong"], 2, "unrecognized arguments: --wrong"),
            (["--board", "{1|0}"], 2, "is no board that can be drawn"),
            (["--board", 'Clobber("xo|o")'], 2, "is no board that can be drawn"),
            (["1", "-o", str(self.folder / "none" / "x")], 4, "No such file or directory"),
        ]
        for words, status, message in rows:
            with self.subTest(words=words):
                found, written, told = run("cg-plot", words)
                self.assertEqual((found, written), (status, ""))
                self.assertTrue(told.startswith("cg-plot: "), told)
                self.assertIn(message, told)

    def test_a_program_that_fails(self) -> None:
        changes = {"CG": program(self.folder, "exit 5")}
        status, written, told = run("cg-plot", ["1"], changes=changes)
        self.assertEqual((status, written), (5, ""))
        self.assertIn("memory was wanting", told)
        status, _, told = run("cg-plot", ["1"], changes={"CG": "/nowhere"})
        self.assertEqual(status, 2)
        self.assertIn("CG in the environment names /nowhere", told)

    def test_a_full_disk(self) -> None:
        with open("/dev/full", "wb") as full:
            done = subprocess.run(
                [*command("cg-plot"), "1"],
                stdout=full,
                stderr=subprocess.PIPE,
                env=environment(),
                timeout=300,
                check=False,
            )
        self.assertEqual(done.returncode, 4)
        self.assertIn(b"the picture can't be written", done.stderr)

    def test_the_version(self) -> None:
        status, written, _ = run("cg-plot", ["--version"])
        self.assertEqual((status, written.splitlines()[0]), (0, f"cg-plot (cgcalc) {VERSION}"))
