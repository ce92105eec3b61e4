"""What Python's users expect of numbers, files, lists and bars."""
from __future__ import annotations

import subprocess
import sys
import weakref
from fractions import Fraction
from functools import partial
from numbers import Integral, Rational
from pathlib import Path
from typing import Any, Callable
from unittest import mock

import pytest

from cgcalc import (
    Game,
    Refusal,
    Session,
    Value,
    WrongCall,
    clobber,
    domineering,
    find_program,
    game,
    octal,
)
from cgcalc.processors import processors
from cgcalc.table import Table
from tests.places import ROOT, command, environment, run


class Index:
    """A whole number as numpy has them."""

    def __init__(self, number: int) -> None:
        self.number = number

    def __index__(self) -> int:
        return self.number


class Ratio:
    """A fraction as Sage has them: the numerator and the denominator are calls."""

    def __init__(self, above: int, below: int) -> None:
        self.above, self.below = above, below

    def numerator(self) -> Index:
        """The numerator."""
        return Index(self.above)

    def denominator(self) -> Index:
        """The denominator."""
        return Index(self.below)


Integral.register(Index)
Rational.register(Ratio)


def test_numbers_of_other_packages() -> None:
    half: Any = Ratio(1, 2)
    three: Any = Index(3)
    assert Game(half).expression == "1/2" and Game(three).expression == "3"
    assert Game("1/2") == half and Value("1/2") == half and Value("3") == three
    assert str(Game("^") + half) == "^ + 1/2" and str(three * Game("^")) == "3.^"
    assert str(game(three, half)) == "{3|1/2}" and Game("^") < three
    assert octal("0.77", three).value == Value("*3")
    assert Game("{2|-1}").thermograph.at(half).left == Fraction(3, 2)
    sizes: Any = [Index(2), 3]
    table = Session().table("value {rows}", rows=sizes)
    assert [str(reply) for reply in table.replies] == ["2", "3"]
    for wrong in (0.5, "1", None, Ratio(1, 2)):
        with pytest.raises(WrongCall):
            octal("0.77", wrong)  # type: ignore[arg-type]


def test_share_of_another_kind() -> None:
    three: Any = Index(1_000)
    assert Session(share=three, processes=Index(1)).share == 1_000  # type: ignore[arg-type]
    with pytest.raises(WrongCall, match="share must be a number"):
        Session(share=1_000.0)  # type: ignore[arg-type]


def test_truth_and_equality() -> None:
    assert not Game(0) and not Game("* + *") and Game("*") and Game(-1)
    with mock.patch("cgcalc.session.Session._batch", side_effect=AssertionError):
        for other in ("1", None, object(), 1.5, [1]):
            assert not Game("1 + *") == other and Game("1 + *") != other
        assert Game("1") not in ["1", None] and Value("1") not in ["1", None]
    assert Game('Toads("T.F")') == domineering(".|.") * 0 + Game("*")
    board = clobber("xo").board
    assert board is not None and Game("*") == board


def test_games_are_small() -> None:
    g = Game("*")
    assert not hasattr(g, "__dict__") and weakref.ref(g)() is g


def test_files_of_questions(tmp_path: Path) -> None:
    path = tmp_path / "questions"
    path.write_text("value 1\nmean {2|-1}\nvalue {1,2}")
    with open(path) as file:
        replies = Session().ask(file)
    assert [str(reply) for reply in replies] == ["1", "1/2", "! syntax 11"]


def test_errors_name_the_place_in_a_list() -> None:
    none: Any = None
    rows: list[tuple[Callable[[], object], str]] = [
        (lambda: Session().ask(["value 1", ""]), r"questions\[1\]: this asks nothing: ''"),
        (lambda: Session().ask(["value 1", 3]), r"questions\[1\]: a question is"),  # type: ignore
        (lambda: game([1, None], 1), r"lefts\[1\]: None is no game"),  # type: ignore[list-item]
        (lambda: game(1, ["1 ; 2"]), r"rights\[0\]: '1 ; 2' isn't one expression"),
        (lambda: domineering(["..", none]), r"\[1\] of a list of texts is none: None"),
        (lambda: Session().table("value {board}", boards=["1", None]), r"boards\[1\] is no board"),
    ]
    for call, told in rows:
        with pytest.raises(WrongCall, match=told):
            call()


def test_half_a_letter_spoils_one_line() -> None:
    replies = Session().ask(["value 1", "value \ud800", 'value Clobber("\udcff")', "value 2"])
    wanted = [Value("1"), Refusal("syntax", 7), Refusal("syntax", 16), Value("2")]
    assert replies == wanted


@pytest.mark.parametrize("timeout", [1e9, float("inf"), 10**12, Fraction(10**7)])
def test_long_times(timeout: Any) -> None:
    if isinstance(timeout, Fraction):
        timeout = float(timeout)
    assert Session(timeout=timeout).ask(["value 1"]) == [Value("1")]


def test_a_bar_with_words_of_its_own() -> None:
    made: list[dict[str, object]] = []
    moved: list[int] = []

    class Bar:
        """A bar as tqdm makes them."""

        def __init__(self, **words: object) -> None:
            made.append(words)

        def update(self, n: int) -> None:
            """Moves the bar."""
            moved.append(n)

        def close(self) -> None:
            """Ends the bar."""
            moved.append(-1)

    Session().ask(["value 1", "value 2"], progress=partial(Bar, desc="games"))
    assert made == [{"desc": "games", "total": 2}] and moved == [1, 1, -1]
    told: list[tuple[int, int]] = []
    listener = partial(lambda name, done, total: told.append((done, total)), "x")
    Session().ask(["value 1"], progress=listener)
    assert told == [(1, 1)]


def test_tables_in_html() -> None:
    table = Session().table("value {columns}", columns="1-200")
    whole, shown = table.text("html"), table._repr_html_()
    assert whole.count("<tr>") == 201 and "<td>137</td>" in whole
    assert shown.count("<tr>") == 62 and ".. 140 more rows" in shown
    assert "<td>50</td><td>50</td>" in shown and "<td>191</td>" in shown and "137" not in shown
    short = Session().table("value {columns}", columns="1-60")
    assert short._repr_html_() + "\n" == short.text("html")
    with pytest.raises(WrongCall, match="'xml' is none of the forms tsv"):
        table.text("xml")


def test_tables_in_latex() -> None:
    table: Table = Session().table(["value Clobber({board})", "temp {board}"], boards=['"x|o"'])
    assert table.text("latex").splitlines()[1:] == [
        r"board & value & temp \\ \hline",
        r'\texttt{"x\textbar{}o"} & ${\ast}$ & \texttt{! syntax 6} \\',
        r"\end{tabular}",
    ]


def test_processors(tmp_path: Path) -> None:
    with mock.patch("os.sched_getaffinity", lambda _: set(range(40))):
        with mock.patch("cgcalc.processors.GROUPS", tmp_path / "none"):
            assert processors() == 40
        (tmp_path / "cpu.max").write_text("250000 100000\n")
        with mock.patch("cgcalc.processors.GROUPS", tmp_path):
            assert processors() == 3
            (tmp_path / "cpu.max").write_text("max 100000\n")
            assert processors() == 40
            (tmp_path / "cpu.max").unlink()
            (tmp_path / "cpu").mkdir()
            (tmp_path / "cpu" / "cpu.cfs_quota_us").write_text("100000\n")
            (tmp_path / "cpu" / "cpu.cfs_period_us").write_text("50000\n")
            assert processors() == 2
            own = tmp_path / "own"
            own.write_text("1:cpu,cpuacct:/box/deep\n0::/other\n")
            (tmp_path / "cpu" / "box" / "deep").mkdir(parents=True)
            (tmp_path / "cpu" / "box" / "cpu.cfs_quota_us").write_text("50000\n")
            (tmp_path / "cpu" / "box" / "cpu.cfs_period_us").write_text("50000\n")
            with mock.patch("cgcalc.processors.OWN_GROUP", own):
                assert processors() == 1


def test_a_session_takes_the_processors_that_it_may_use() -> None:
    script = "import os; os.sched_setaffinity(0, [min(os.sched_getaffinity(0))])\n"
    script += "from cgcalc import Session; print(Session().processes)"
    changes = environment(PYTHONPATH=str(Path(__file__).parents[1]))
    done = subprocess.run([sys.executable, "-c", script], env=changes, stdout=-1, check=True)
    assert done.stdout == b"1\n"


def test_the_empty_board_of_4_by_5_is_answered_everywhere() -> None:
    board = 'Domineering(".....|.....|.....|.....")'
    asked = subprocess.run(
        [find_program()], input=f"value {board}\n".encode(), stdout=subprocess.PIPE, check=True
    )
    name = asked.stdout.decode().partition(": ")[2].rstrip("\n")
    assert "!" not in name and str(Session().value(board)) == name
    assert run("cg-shell", ["-c", board]) == (0, f"{name}\n", "")
    sizes = ["--rows", "4", "--columns", "5", "--fill", "."]
    table = run("cg-table", ['value Domineering("{board}")', *sizes])
    assert table == (0, f"rows\tcolumns\tvalue\n4\t5\t{name}\n", "")
    assert run("cg-plot", [board])[0] == 0


def test_importing_it_loads_little() -> None:
    script = "import sys, cgcalc; print(*sys.modules)"
    words = [sys.executable, "-c", script]
    there = {**environment(), "PYTHONPATH": str(ROOT / "python")}
    done = subprocess.run(words, stdout=subprocess.PIPE, env=there, check=True)
    loaded = set(done.stdout.decode().split())
    assert "cgcalc.game" in loaded
    assert not loaded & {"argparse", "csv", "hashlib", "json", "pandas", "sqlite3", "xml.sax"}


def test_a_shell_without_a_home() -> None:
    script = "import pathlib, sys\n"
    script += "def home(): raise RuntimeError('no home')\n"
    script += "pathlib.Path.home = home\n"
    script += "from cgcalc import cg_shell\nprint(cg_shell.history_place())"
    changes = environment(PYTHONPATH=str(Path(__file__).parents[1]))
    changes.pop("CG_HISTORY", None)
    done = subprocess.run([sys.executable, "-c", script], env=changes, stdout=-1, check=True)
    assert done.stdout == b"None\n"


def test_a_plot_behind_a_pipe_that_is_closed_and_one_that_takes_too_long(tmp_path: Path) -> None:
    words = [*command("cg-plot"), *["{2|0}"] * 400]
    with subprocess.Popen(words, stdout=-1, stderr=-1, env=environment()) as running:
        assert running.stdout and running.stderr
        running.stdout.close()
        assert (running.stderr.read(), running.wait(100)) == (b"", 141)
    slow = tmp_path / "slow"
    slow.write_text("#!/bin/sh\nexec sleep 1000\n")
    slow.chmod(0o755)
    status, _, told = run("cg-plot", ["1", "--timeout", "0.5"], changes={"CG": str(slow)})
    assert status == 124 and "it took too long" in told
