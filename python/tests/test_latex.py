"""LaTeX of values, games and comparisons."""
from __future__ import annotations

import unittest

from cgcalc import Comparison, Game, Value, domineering
from cgcalc.latex import latex_of

ROWS = [
    ("0", "0"),
    ("-3/2", r"-\tfrac{3}{2}"),
    ("*", r"{\ast}"),
    ("1/2*3", r"\tfrac{1}{2}{\ast}3"),
    ("^", r"{\uparrow}"),
    ("^^*", r"{\Uparrow}{\ast}"),
    ("v", r"{\downarrow}"),
    ("vv", r"{\Downarrow}"),
    ("^5", r"5{\cdot}{\uparrow}"),
    ("v3*", r"3{\cdot}{\downarrow}{\ast}"),
    ("2^", r"2 + {\uparrow}"),
    ("1 - 2^*", r"1 - (2 + {\uparrow}{\ast})"),
    ("- 2^", r"-(2 + {\uparrow})"),
    ("1-2^", r"1 - (2 + {\uparrow})"),
    ("+-1", r"{\pm}1"),
    ("1 + +-3/2", r"1 + {\pm}\tfrac{3}{2}"),
    ("1+-1", "1 - 1"),
    ("Tiny(2)", r"\boldsymbol{+}_{2}"),
    ("Miny(1/4)", r"\boldsymbol{-}_{\tfrac{1}{4}}"),
    ("{2|-1}", r"\{2 \mid -1\}"),
    ("{4||2|0}", r"\{4 \parallel 2 \mid 0\}"),
    ("{a,b|||1}", r"\{\mathit{a}, \mathit{b} \mathrel{|||} 1\}"),
    ("3.{1|0}", r"3 \cdot \{1 \mid 0\}"),
    ('Domineering("..|#.")', r"\text{Domineering}(\mathtt{..|\#.})"),
    ("g2 - (1 + *)", r"\mathit{g2} - (1 + {\ast})"),
]


class Latex(unittest.TestCase):
    """Each is written as papers write it, and braces match."""

    def test_rows(self) -> None:
        for expression, latex in ROWS:
            self.assertEqual(latex_of(expression), latex, expression)

    def test_braces_match(self) -> None:
        for expression, _ in ROWS + [("}{", ""), ("\\ $ # %", ""), ('"a', ""), ("\u00e4", "")]:
            depth = 0
            for sign in latex_of(expression).replace(r"\{", "").replace(r"\}", ""):
                depth += {"{": 1, "}": -1}.get(sign, 0)
                self.assertGreaterEqual(depth, 0, expression)
            self.assertEqual(depth, 0, expression)

    def test_objects(self) -> None:
        value = Value("{{4|2}|{0|-1}}")
        self.assertEqual(value._repr_latex_(), r"$\{4 \mid 2 \parallel 0 \mid -1\}$")
        self.assertEqual(Game("2 + ^")._repr_latex_(), r"$2 + {\uparrow}$")
        order = Comparison("^", "||", "*")
        self.assertEqual(order._repr_latex_(), r"${\uparrow} \parallel {\ast}$")
        self.assertEqual(Comparison("1", "=", "1")._repr_latex_(), "$1 = 1$")
        self.assertIsNone(domineering("..")._repr_latex_())
