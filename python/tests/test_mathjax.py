"""LaTeX as a notebook shows it: rendered by MathJax in a browser."""
from __future__ import annotations

import html
import re
import subprocess
from pathlib import Path

from cgcalc import Board
from cgcalc.latex import latex_of
from tests.test_latex import ROWS

MATHJAX = Path("/usr/share/javascript/mathjax/MathJax.js")
BOARDS = [
    Board("Domineering", ("..|#.",)),
    Board("Hackenbush", ("0b1,1r2",)),
    Board("Snort", ("..", "ab")),
    Board("Octal", ("0.77",), 9),
    Board("Strip", (".=1,0,0;A=0,0,0;L:..>AA;%_=3,0,0;&$\\~^'=1,0,0", "..A# ")),
]
PAGE = """<!DOCTYPE html><html><head><meta charset="utf-8">
<script type="text/x-mathjax-config">MathJax.Hub.Config({messageStyle: "none"});</script>
<script src="%s?config=TeX-MML-AM_CHTML"></script></head><body>%s</body></html>"""
MATH = re.compile(r'<math xmlns="[^"]*"[^>]*>(.*?)</math>', re.DOTALL)


def rendered(folder: Path, formulas: list[str]) -> list[str]:
    """What a browser shows of formulas, in MathML."""
    shown = "".join(f"<p>\\({html.escape(formula)}\\)</p>" for formula in formulas)
    page = folder / "page.html"
    page.write_text(PAGE % (MATHJAX.as_uri(), shown))
    words = ["chromium", "--headless", "--no-sandbox", "--disable-gpu", f"--user-data-dir={folder}"]
    words += ["--allow-file-access-from-files", "--virtual-time-budget=30000", "--dump-dom"]
    done = subprocess.run(
        [*words, page.as_uri()], capture_output=True, text=True, timeout=120, check=True
    )
    return MATH.findall(done.stdout)


def text_of(math: str) -> str:
    """The letters and signs of a formula."""
    return html.unescape(re.sub(r"<[^>]*>|\s", "", math)).replace("\u00a0", " ")


def test_every_formula_is_shown(tmp_path: Path) -> None:
    expressions = [expression for expression, _ in ROWS] + [board.expression for board in BOARDS]
    shown = rendered(tmp_path, [latex_of(expression) for expression in expressions])
    assert len(shown) == len(expressions)
    for expression, math in zip(expressions, shown):
        assert "merror" not in math and "\\" not in text_of(math), expression
    assert text_of(shown[-5]) == "Domineering(..|#.)"
    assert text_of(shown[-4]) == "Hackenbush(0b1,1r2)"
    rules = ".=1,0,0;A=0,0,0;L:..>AA;%_=3,0,0;&$\u2216\u223c\u2227'=1,0,0"
    assert text_of(shown[-1]) == f"Strip({rules},..A# )"
    assert text_of(shown[0]) == "0" and text_of(shown[2]) == "\u2217"
