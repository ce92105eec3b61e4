"""gate-cost prints what a run of the gate cost, and fails where a limit is passed."""
import json
import os
import shutil
import subprocess
import sys
import unittest

from test_checks import Tried

STORED = {
    "crates": {
        "cg_one": {"proofs": [600, 2_000_000_000], "edits": [300, 1_000_000_000]},
        "cg_two": {"proofs": [1_200, 1_500_000_000], "tests": [60, 3_400_000_000], "builds": [30, 100_000_000]},
    },
    "bikes": [56, 64], "clock": 900, "used": 2_400, "status": 0,
}
TABLE = """| Crate | Proofs | Tests | Edits | Builds | Sum | GB |
|---|---|---|---|---|---|---|
| cg_two | 20.0 | 1.0 | 0.0 | 0.5 | 21.5 | 3.4 |
| cg_one | 10.0 | 0.0 | 5.0 | 0.0 | 15.0 | 2.0 |
| all | 30.0 | 1.0 | 5.0 | 0.5 | 36.5 | 3.4 |
gate-cost: 36.5 minutes of processor time by crate, 40.0 in all; 15.0 by the clock, some 20.0 on two processors; status 0
gate-cost: bikes took 0.93 and 1.07 minutes: 36.5 minutes by crate for each of their mean, 40.0 in all
"""
# A kit whose gate runs a process of the prover, and whose example is proved or not.
KIT = """#!/bin/bash
case "$1" in
help) echo "--anew";;
doc) echo "{folder}/kit/START-HERE.md";;
verdict) [ -f main.rt ] && python3 -c "sum(range(3000000))"; exit {bikes};;
ci) echo "the gate: $*"; (exec -a rattle "{folder}/check" check --crate-name cg_one); exit {gate};;
esac
"""
PROVER = "#include <stdlib.h>\n#include <string.h>\n#include <time.h>\nint main(void) { memset(malloc(80000000), 1, 80000000);\n" \
         "while (clock() < 3 * CLOCKS_PER_SEC) {} return 0; }\n"


class GateCost(Tried):
    """gate-cost, with stored figures, and with a kit whose gate is a program that takes three seconds and 80 MB."""

    def figures(self, **changed):
        """The path of stored figures, some of which are changed."""
        path = os.path.join(self.folder, "figures.json")
        with open(path, "w", encoding="utf-8") as file:
            json.dump({**STORED, **changed}, file)
        return path

    def printed(self, wanted, told, **changed):
        """The status of the print of changed figures, and a line in it."""
        ended, written = self.run_tool("gate-cost", "--print", self.figures(**changed))
        self.assertEqual(ended, wanted, written)
        self.assertIn(told, written)

    def test_stored_figures(self):
        ended, written = self.run_tool("gate-cost", "--print", self.figures())
        self.assertEqual((ended, written), (0, TABLE))

    def test_limits_that_are_passed(self):
        self.printed(1, "\ngate-cost: the gate takes 38.4 minutes for each of bikes, and may take 38\n", bikes=[57, 57])
        self.printed(1, "\ngate-cost: cg_one takes 3.51 GB in its tests, and may take 3.5\n",
                     crates={"cg_one": {"proofs": [60, 3_000_000_000], "tests": [1, 3_510_000_000]}})
        self.printed(3, "; status 3\n", status=3)

    def test_no_bikes_and_no_crates(self):
        """Bikes aren't told where they weren't proved."""
        ended, written = self.run_tool("gate-cost", "--print", self.figures(bikes=[], crates={}))
        self.assertEqual(ended, 0, written)
        self.assertNotIn("bikes", written)
        self.assertIn("\n| all | 0.0 | 0.0 | 0.0 | 0.0 | 0.0 | 0.0 |\n", written)

    def test_what_has_no_figures(self):
        self.fails("has no figures: ", "gate-cost", "--print", "/nowhere", status=2)
        self.fails("has no figures: ", "gate-cost", "--print", self.page("a page"), status=2)
        self.fails("has no figures: ", "gate-cost", "--print", self.page("[]"), status=2)

    def kit(self, bikes=0, gate=0):
        """A PATH that begins with a kit."""
        prover = self.built(PROVER, name="check")
        example = os.path.join(self.folder, "kit", "rattle", "examples", "worked", "bikes")
        shutil.rmtree(os.path.join(self.folder, "kit"), ignore_errors=True)
        os.makedirs(example)
        with open(os.path.join(example, "main.rt"), "w", encoding="utf-8") as file:
            file.write("fn main() {}\n")
        path = os.path.join(self.folder, "rt")
        with open(path, "w", encoding="utf-8") as file:
            file.write(KIT.format(folder=os.path.dirname(prover), bikes=bikes, gate=gate))
        os.chmod(path, 0o755)
        return f"{self.folder}:{os.path.dirname(sys.executable)}:{os.environ['PATH']}"

    def run_gate(self, wanted, *words, **given):
        """Runs the gate of a kit: what is printed, and the figures that are stored."""
        ended, written = self.run_tool("gate-cost", *words, path=self.kit(**given))
        self.assertEqual(ended, wanted, written)
        path = written.splitlines()[0].split()[-1]
        self.addCleanup(shutil.rmtree, os.path.dirname(path), True)
        if not os.path.exists(path):
            return written, None
        with open(path, encoding="utf-8") as file:
            return written, json.load(file)

    def test_a_run(self):
        written, figures = self.run_gate(0, "--bikes", "cg_one")
        seconds, size = figures["crates"]["cg_one"]["proofs"]
        self.assertTrue(1 < seconds < 3.2, seconds)
        self.assertTrue(80e6 < size < 100e6, size)
        self.assertGreater(figures["used"], 3)
        self.assertGreater(figures["clock"], 3)
        self.assertEqual([seconds > 0 for seconds in figures["bikes"]], [True, True])
        self.assertRegex(written, r"\n\| cg_one \| 0\.[01] \| 0\.0 \| 0\.0 \| 0\.0 \| 0\.[01] \| 0\.1 \|\n")
        self.assertRegex(written, r"\ngate-cost: bikes took [\d.]+ and [\d.]+ minutes: ")

    def test_other_provers(self):
        """What the gate didn't start doesn't count."""
        path = self.kit()
        words = ["rattle", "check", "--crate-name", "cg_other"]
        with subprocess.Popen(words, executable=os.path.join(self.folder, "check")) as other:
            ended, written = self.run_tool("gate-cost", path=path)
            other.kill()
        self.addCleanup(shutil.rmtree, os.path.dirname(written.splitlines()[0].split()[-1]), True)
        self.assertEqual(ended, 0, written)
        self.assertIn("\n| cg_one |", written)
        self.assertNotIn("cg_other", written)

    def test_a_gate_that_fails(self):
        self.assertEqual(self.run_gate(3, gate=3)[1]["status"], 3)

    def test_bikes_that_fail(self):
        written, figures = self.run_gate(1, "--bikes", bikes=2)
        self.assertIn("the proof of bikes ended with status 2", written)
        self.assertIsNone(figures)

    def test_a_kit_without_bikes(self):
        path = self.kit()
        shutil.rmtree(os.path.join(self.folder, "kit", "rattle"))
        ended, written = self.run_tool("gate-cost", "--bikes", path=path)
        self.assertEqual(ended, 2, written)
        self.assertIn("the kit has no ", written)


if __name__ == "__main__":
    unittest.main()
