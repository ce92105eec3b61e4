"""The notebook of examples/ runs, and shows what stands in it."""
from __future__ import annotations

import ast
import contextlib
import io
import json
import os
import unittest
from importlib import import_module
from importlib.util import find_spec
from typing import Any
from unittest import mock

from tests.places import ROOT, environment

NOTEBOOK = ROOT / "examples" / "research.ipynb"
KINDS = {
    "text/html": "_repr_html_",
    "text/latex": "_repr_latex_",
    "image/svg+xml": "_repr_svg_",
}
RUNNER = ("nbclient", "ipykernel")
MISSING = [name for name in RUNNER if find_spec(name) is None]

Shown = dict[str, str]


def cells() -> list[dict[str, Any]]:
    """The cells of code."""
    notebook = json.loads(NOTEBOOK.read_text())
    return [cell for cell in notebook["cells"] if cell["cell_type"] == "code"]


def shown(cell: dict[str, Any]) -> Shown:
    """What stands below a cell: what it printed, and each kind of what it shows."""
    found: Shown = {}
    for output in cell["outputs"]:
        data = output.get("data", {"printed": output.get("text", "")})
        found.update({kind: "".join(text) for kind, text in data.items()})
    return found


def run_cell(source: str, names: dict[str, object]) -> Shown:
    """What a cell would show: the last expression as a notebook shows it."""
    body = ast.parse(source).body
    last = body.pop() if body and isinstance(body[-1], ast.Expr) else None
    printed = io.StringIO()
    value = None
    with contextlib.redirect_stdout(printed):
        exec(compile(ast.Module(body, []), "cell", "exec"), names)
        if isinstance(last, ast.Expr):
            value = eval(compile(ast.Expression(last.value), "cell", "eval"), names)
    found = {"printed": printed.getvalue()} if printed.getvalue() else {}
    if value is not None:
        found["text/plain"] = repr(value)
        for kind, method in KINDS.items():
            drawn = getattr(value, method, lambda: None)()
            if drawn is not None:
                found[kind] = drawn
    return found


class Notebook(unittest.TestCase):
    """It is run cell by cell, and by the runner of notebooks where that is installed."""

    maxDiff = 1_000

    def test_cell_by_cell(self) -> None:
        names: dict[str, object] = {}
        for cell in cells():
            source = "".join(cell["source"])
            with self.subTest(source=source):
                self.assertEqual(run_cell(source, names), shown(cell))

    def test_it_has_pictures(self) -> None:
        kinds = [kind for cell in cells() for kind in shown(cell)]
        self.assertGreaterEqual(kinds.count("image/svg+xml"), 4)
        self.assertGreaterEqual(kinds.count("text/latex"), 3)

    @unittest.skipIf(MISSING, f"this Python has no {', '.join(MISSING)}")
    def test_by_the_runner_of_notebooks(self) -> None:
        notebook = import_module("nbformat").read(NOTEBOOK, as_version=4)
        places = {"PYTHONPATH": str(ROOT / "python"), "PYDEVD_DISABLE_FILE_VALIDATION": "1"}
        with mock.patch.dict(os.environ, environment(**places)):
            import_module("nbclient").NotebookClient(
                notebook, timeout=300, kernel_name="python3"
            ).execute()
        run = [cell for cell in notebook.cells if cell.cell_type == "code"]
        for cell, wanted in zip(run, cells()):
            self.assertEqual(shown(cell), shown(wanted), cell.source)
