"""The examples of the pages have the types that a strict reader wants."""
from __future__ import annotations

import doctest
import subprocess
import sys
import tempfile
import unittest
from importlib.util import find_spec
from pathlib import Path

from tests.places import ROOT, environment

PAGES = ("docs/TOOLS.md", "docs/BATCHES.md", "python/README.md")


@unittest.skipUnless(find_spec("mypy"), "this Python has no mypy")
class Pages(unittest.TestCase):
    """mypy --strict passes on the examples of each page, as one script."""

    def test_the_examples_of_the_pages(self) -> None:
        with tempfile.TemporaryDirectory() as folder:
            scripts = []
            for number, page in enumerate(PAGES):
                script = Path(folder, f"page{number}.py")
                script.write_text(doctest.script_from_examples((ROOT / page).read_text()))
                scripts.append(script.name)
            words = ["--strict", "--no-error-summary", "--cache-dir", folder, *scripts]
            done = subprocess.run(
                [sys.executable, "-m", "mypy", *words],
                capture_output=True,
                cwd=folder,
                env=environment(MYPYPATH=str(ROOT / "python")),
                timeout=600,
                check=False,
            )
        self.assertEqual(done.stdout.decode() + done.stderr.decode(), "")
        self.assertEqual(done.returncode, 0)
