"""The command cg-table, run as a user runs it."""
from __future__ import annotations

import io
import os
import pty
import select
import signal
import subprocess
import tempfile
import unittest
from pathlib import Path
from contextlib import redirect_stderr, redirect_stdout
from typing import Sequence
from unittest import mock

from cgcalc import Session, WrongCall, domineering
from cgcalc.cg_table import main
from tests.places import ROOT, command, ended, environment, program, run, waits

TEMPERATURES = ['temp Domineering("{board}")', "--fill", "."]
SQUARES = [*TEMPERATURES, "--rows", "1-4", "--columns", "1-4"]
BOARDS = str(ROOT / "examples" / "first.txt")
GRID = """\
rows \\ columns   1    2     3     4
             1  -1   -1    -1    -1
             2  -1    1   5/4     0
             3  -1  5/4     1  -1/2
             4  -1    0  -1/2     0
"""


def tried(words: Sequence[str], folder: str) -> tuple[int, str, str]:
    """Runs the command in this process: its status, what it wrote and what it told."""
    written, told, before = io.StringIO(), io.StringIO(), os.getcwd()
    nothing = io.TextIOWrapper(io.BytesIO())
    os.chdir(folder)
    try:
        with redirect_stdout(written), redirect_stderr(told), mock.patch("signal.signal"):
            with mock.patch("sys.stdin", nothing):
                status = main(words)
    except SystemExit as end:
        status = int(end.code or 0)
    finally:
        os.chdir(before)
    return status, written.getvalue(), told.getvalue()


MEANS = ["mean {{rows}|-{columns}}", "--rows", "1-4", "--columns", "1-4"]
GRID_OF_MEANS = """\
rows \\ columns    1     2     3     4
             1    0  -1/2    -1  -3/2
             2  1/2     0  -1/2    -1
             3    1   1/2     0  -1/2
             4  3/2     1   1/2     0
"""


class Tables(unittest.TestCase):
    """What is written."""

    def test_temperatures_of_rectangles(self) -> None:
        self.assertEqual(run("cg-table", [*SQUARES, "--format", "grid"]), (0, GRID, ""))

    def test_tabs(self) -> None:
        words = [*TEMPERATURES, "--rows", "2", "--columns", "2-3"]
        self.assertEqual(
            run("cg-table", words), (0, "rows\tcolumns\ttemp\n2\t2\t1\n2\t3\t5/4\n", "")
        )

    def test_answers_of_several_cells(self) -> None:
        words = ["stops {board}", "--boards", "-"]
        wanted = "board\tleft\tright\n{2|0}\t2\t0\n1\t1\t1\n"
        self.assertEqual(run("cg-table", words, "{2|0}\n\n 1\t\n"), (0, wanted, ""))
        words = ["thermo +-{columns}", "--columns", "2", "--format", "aligned"]
        wanted = "columns  mean  temp  left     right\n      2     0     2  2@0 0@2  -2@0 0@2\n"
        self.assertEqual(run("cg-table", words), (0, wanted, ""))
        words = ["proof {columns} ; {rows}.^", "--columns", "1", "--rows", "1"]
        self.assertEqual(
            run("cg-table", words), (0, "rows\tcolumns\tholds\tproof\n1\t1\tyes\t(g0.)\n", "")
        )

    def test_symbols_in_turn(self) -> None:
        words = ['value Clobber("{board}")', "--columns", "2-3", "--rows", "2", "--fill", "xo"]
        self.assertEqual(
            run("cg-table", words), (0, "rows\tcolumns\tvalue\n2\t2\t*\n2\t3\t0\n", "")
        )

    def test_refusals_are_explained(self) -> None:
        words = ['value Clobber("{board}")', "--boards", "-"]
        status, written, told = run("cg-table", words, "xo\nxa\no\nxb\nx|oo\n")
        self.assertEqual(status, 1)
        self.assertEqual(
            written,
            "board\tvalue\nxo\t*\nxa\t! board symbol 2\no\t0\nxb\t! board symbol 2\n"
            "x|oo\t! board ragged 3\n",
        )
        self.assertEqual(
            told,
            'cg-table: 2 of 5 refused, as value Clobber("xa") by ! board symbol 2:'
            " the board has a symbol at place 2 that the game hasn't\n"
            'cg-table: 1 of 5 refused, as value Clobber("x|oo") by ! board ragged 3:'
            " the row that starts at place 3 of the board isn't as long as the first\n",
        )

    def test_limits(self) -> None:
        words = ["value {board}", "--boards", "-"]
        self.assertEqual(run("cg-table", [*words, "--share", "5"], "{0|0}\n")[0], 0)
        self.assertRegex(run("cg-table", [*words, "--share", "4"], "{0|0}\n")[2], "--share gives")
        self.assertRegex(
            run("cg-table", [*words, "--positions", "2"], "^\n")[2], "--positions sets"
        )

    def test_progress_at_a_terminal(self) -> None:
        here, there = pty.openpty()
        done = subprocess.run(
            [*command("cg-table"), *SQUARES],
            stdin=subprocess.DEVNULL,
            stdout=subprocess.PIPE,
            stderr=there,
            env=environment(),
            timeout=300,
            check=False,
        )
        shown = os.read(here, 10_000).decode()
        os.close(here)
        os.close(there)
        self.assertEqual(done.returncode, 0)
        self.assertIn("0 of 16", shown)
        self.assertTrue(shown.endswith("\r\033[K"))

    def test_aligned_columns_at_a_terminal(self) -> None:
        here, there = pty.openpty()
        words = [*command("cg-table"), "mean {columns}", "--columns", "9-10"]
        done = subprocess.run(words, stdout=there, env=environment(), timeout=300, check=False)
        shown = os.read(here, 10_000).decode()
        os.close(here)
        os.close(there)
        self.assertEqual(
            (done.returncode, shown), (0, "columns  mean\r\n      9     9\r\n     10    10\r\n")
        )


class BadUse(unittest.TestCase):
    """One clear line, a status of 2, and nothing written."""

    def refused(self, words: Sequence[str], told: str) -> None:
        with tempfile.TemporaryDirectory() as folder:
            status, written, message = tried(words, folder)
            self.assertEqual((status, written, os.listdir(folder)), (2, "", []))
        self.assertRegex(message, f"^cg-table: .*{told}.*\n$")
        self.assertEqual(message.count("\n"), 1)

    def test_words(self) -> None:
        board = 'temp Clobber("{board}")'
        rows: list[tuple[list[str], str]] = [
            ([], "required: question"),
            (["value 1"], "give either --rows and --columns, or --boards"),
            ([board, "--rows", "1", "--boards", "-"], "give either --rows and --columns, or"),
            ([board, "--rows", "1"], "fill has to say"),
            (["value 1", "--rows", "1"], "has no {board}, {rows} or {columns}"),
            (["value {rows}", "--boards", BOARDS], "the question 'value {rows}' has no {board}"),
            ([board, "--boards", "nowhere"], "can't be read from nowhere: No such file"),
            ([board, "--boards", "-"], "there are no boards in -"),
            ([*SQUARES, "--rows", "4-1"], "rows is a number, a range such as 1-4, or a list"),
            ([*SQUARES, "--columns", "1,x"], "or a list such as 1,3,5, not '1,x'"),
            ([*SQUARES, "--columns", ""], "columns is a number, a range"),
            ([*SQUARES, "--format", "xml"], "invalid choice: 'xml'"),
            ([*SQUARES, "value {rows}", "--format", "grid"], "grid needs .* one question"),
            ([*SQUARES, "--define", "value 1"], "--define is a name, := and a game, not 'value 1'"),
            ([*SQUARES, "--define", "g := {1"], "g := {1 is refused by ! syntax 8: .* too early"),
            ([*SQUARES, "--timeout", "0"], "timeout is a number of seconds above 0"),
            ([*SQUARES, "--memory", "4X"], "a size is a number of bytes, or as 500M, not '4X'"),
            ([*SQUARES, "--memory", "1M"], "give more memory, or a smaller share"),
            (["value {columns}", "--columns", "1", "--format", "grid"], "grid needs"),
            ([*SQUARES, "--share", "0"], "share must be a number from 1 to 67108864"),
            ([*SQUARES, "--share", "x"], "invalid int value: 'x'"),
            ([*SQUARES, "--processes", "0"], "processes must be a number from 1"),
            ([*SQUARES, "--output", "a", "--resume", "a"], "either --output or --resume"),
            ([*SQUARES, "--output", "nowhere/a"], "nowhere/a.part can't be written"),
            ([*SQUARES, "--resume", "nowhere/a"], "nowhere/a.part can't be written"),
            ([*SQUARES, "--output", "."], "'.' is no name of a file"),
            ([*SQUARES, "--output", ""], "'' is no name of a file"),
            ([*SQUARES, "--resume", "/"], "'/' is no name of a file"),
            (["g := {columns}", "--columns", "1"], "this defines a name"),
            (["# {columns}", "--columns", "1"], "this asks nothing"),
            (["value\n{columns}", "--columns", "1"], "this has several lines"),
            ([*SQUARES, "--more"], "unrecognized arguments: --more"),
        ]
        for words, told in rows:
            with self.subTest(words=words):
                self.refused(words, told)

    def test_no_program(self) -> None:
        status, written, told = run("cg-table", SQUARES, changes={"CG": "/nowhere"})
        self.assertEqual((status, written), (2, ""))
        self.assertEqual(
            told, "cg-table: CG in the environment names /nowhere, which is no program\n"
        )

    def test_a_program_that_fails(self) -> None:
        with tempfile.TemporaryDirectory() as folder:
            failing = {"CG": program(Path(folder), "exit 5")}
            table = Path(folder, "table")
            words = [*SQUARES, "--output", str(table)]
            status, written, told = run("cg-table", words, changes=failing)
            self.assertEqual((status, written), (5, ""))
            self.assertRegex(
                told, "^cg-table: cg ended with status 5: memory was wanting, on .*, after 0 of 16"
            )
            self.assertEqual(os.listdir(folder), ["program"])

    def test_output_that_is_closed(self) -> None:
        words = [*command("cg-table"), "value {columns}", "--columns", "1-20000", "--share", "9"]
        running = subprocess.Popen(
            words, stdout=subprocess.PIPE, stderr=subprocess.PIPE, env=environment()
        )
        assert running.stdout and running.stderr
        running.stdout.readline()
        running.stdout.close()
        told = running.stderr.read().decode()
        running.stderr.close()
        self.assertEqual((running.wait(300), told), (141, ""))


class Further(unittest.TestCase):
    """Several questions, lists of sizes, definitions, further forms, and failures."""

    def setUp(self) -> None:
        holder = tempfile.TemporaryDirectory()
        self.addCleanup(holder.cleanup)
        self.folder = Path(holder.name)

    def written(self, *words: str) -> str:
        """What the command writes, which ends well."""
        status, written, told = run("cg-table", words, folder=self.folder)
        self.assertEqual((status, told), (0, ""))
        return written

    def test_several_questions(self) -> None:
        words = ["value {columns}.g", "stops {columns}.g", "--columns", "0,2", "--define"]
        self.assertEqual(
            self.written(*words, "g := {2|-1}"),
            "columns\tvalue\tstops left\tstops right\n0\t0\t0\t0\n2\t1\t1\t1\n",
        )

    def test_forms(self) -> None:
        words = ["value {{columns},1|0}", "temp {{columns}|0}", "--columns", "3", "--format"]
        for form, wanted in [
            ("csv", 'columns,value,temp\n3,{3|0},3/2\n'),
            ("markdown", "| columns | value | temp |\n|---|---|---|\n| 3 | {3\\|0} | 3/2 |\n"),
            (
                "jsonl",
                '{"columns": 3, "question": "value {3,1|0}", "kind": "value",'
                ' "value": "{3|0}", "number": null}\n'
                '{"columns": 3, "question": "temp {3|0}", "kind": "temperature",'
                ' "temperature": "3/2"}\n',
            ),
        ]:
            with self.subTest(form=form):
                self.assertEqual(self.written(*words, form), wanted)
                self.assertEqual(self.written(*words, form, "--output", f"table.{form}"), "")
                self.assertEqual((self.folder / f"table.{form}").read_text(), wanted)

    def test_cells_with_quotes(self) -> None:
        question = "value Snort(\"..\",\"ab\") + {board}"
        (self.folder / "boards").write_text('Clobber("xo,")\n')
        words = [question, "--boards", "boards", "--format", "csv"]
        _, written, _ = run("cg-table", words, folder=self.folder)
        self.assertEqual(written, 'board,value\n"Clobber(""xo,"")",! board symbol 3\n')

    def test_going_on_beyond_a_failure(self) -> None:
        script = 'cat > "$0.$$"; if grep -q "mean 3/2$" "$0.$$"; then echo no pages >&2; exit 5; fi'
        failing = {"CG": program(self.folder, script + '; exec "$REAL" "$@" < "$0.$$"')}
        table = self.folder / "table"
        words = ["mean {columns}/2", "--columns", "1-5"]
        told = "cg-table: cg ended with status 5: memory was wanting (no pages), on mean 3/2;"
        told += " --keep-going goes on beyond it, after 2 of 5 questions"
        for resumed in ("--output", "--resume"):
            done = run("cg-table", [*words, resumed, str(table)], changes=failing)
            self.assertEqual(done, (5, "", f"{told}; --resume {table} goes on from there\n"))
        words += ["--keep-going"]
        status, _, told = run("cg-table", [*words, "--resume", str(table)], changes=failing)
        self.assertEqual(status, 5)
        self.assertIn("1 of 5 failed, as mean 3/2 by ! failed 5: cg ended with status 5", told)
        self.assertIn("\n2\t1\n3\t! failed 5\n4\t2\n", table.read_text())
        records = [*words, "--format", "jsonl"]
        self.assertIn('"kind": "failed"', run("cg-table", records, changes=failing)[1])

    def test_a_question_that_takes_too_long(self) -> None:
        script = 'cat > "$0.$$"; if grep -q "mean 3$" "$0.$$"; then exec sleep 1000; fi'
        slow = {"CG": program(self.folder, script + '; exec "$REAL" "$@" < "$0.$$"')}
        words = ["mean {columns}", "--columns", "2-4", "--timeout", "1", "--keep-going"]
        status, written, told = run("cg-table", words, changes=slow)
        self.assertEqual((status, written), (124, "columns\tmean\n2\t2\n3\t! failed 124\n4\t4\n"))
        self.assertIn("cg was stopped, since it took too long", told)

    def test_the_version(self) -> None:
        self.assertRegex(self.written("--version"), r"^cg-table \(cgcalc\) [0-9.]+\nprogram: /")

    def test_tables_of_a_session(self) -> None:
        session = Session()
        session.define("g", "{3|0}")
        questions = ["value {board} + g", "thermo {board}"]
        table = session.table(questions, boards=["1", "Clobber(\"x\")", domineering(".|.")])
        self.assertEqual(table.row(0), ["1", "{4|1}", "1", "-1", "1@0", "1@0"])
        self.assertEqual(table.records()[5]["mean"], 1)
        self.assertEqual(table.records()[1]["left"], [(1, 0)])
        self.assertIn("<td>{4|1}</td>", table._repr_html_())
        self.assertEqual(table.text("csv").count("\n"), 4)
        refused = session.table("value 6/{rows}", rows=[2, 3]).records()[1]
        self.assertEqual((refused["kind"], refused["refusal"]), ("refusal", "! range"))
        for words in [
            {"rows": "x"},
            {"rows": 1, "boards": ["1"]},
            {},
            {"boards": "1"},
            {"rows": [-1]},
            {"rows": 1, "fill": 3},
        ]:
            with self.subTest(words=words), self.assertRaises(WrongCall):
                session.table("value {rows}", **words)  # type: ignore[arg-type]


class Stopping(unittest.TestCase):
    """Nothing is lost of a table that is stopped."""

    def setUp(self) -> None:
        holder = tempfile.TemporaryDirectory()
        self.addCleanup(holder.cleanup)
        self.folder = Path(holder.name)
        self.table = self.folder / "table"
        self.part = self.folder / "table.part"
        slow = 'echo $$ >> "$0.runs"; [ $(wc -l < "$0.runs") -le 3 ] || exec sleep 1000'
        slow += '; exec "$REAL" "$@"'
        self.slow = program(self.folder, slow)
        self.runs = self.folder / "program.runs"
        # Two questions to a run, and the fourth run of the slow program doesn't end.
        self.words = [*MEANS, "--share", "1000", "--cells", "2000", "--processes", "1"]

    def stopped(self, words: Sequence[str], number: int) -> tuple[int, str, str]:
        """Starts the command with the slow program, and sends a signal when three runs are done."""
        here, there = pty.openpty()
        running = subprocess.Popen(
            [*command("cg-table"), *words],
            stdout=subprocess.PIPE,
            stderr=there,
            env=environment(CG=self.slow),
        )
        os.close(there)
        shown = ""
        while running.poll() is None and not ("6 of 16" in shown and self.count_runs() == 4):
            shown += self.shown(here)
        running.send_signal(number)
        written, _ = running.communicate(timeout=300)
        while more := self.shown(here):
            shown += more
        os.close(here)
        told = shown.replace("\r\n", "\n").split("\r\033[K")[-1]
        return running.returncode, written.decode(), told

    def count_runs(self) -> int:
        """How many runs of the slow program have begun."""
        return self.runs.read_text().count("\n") if self.runs.exists() else 0

    def shown(self, handle: int) -> str:
        """What is shown at a pseudo-terminal within a tenth of a second; nothing at its end."""
        try:
            return (
                os.read(handle, 1_000).decode() if select.select([handle], [], [], 0.1)[0] else ""
            )
        except OSError:
            return ""

    def test_a_stopped_table_goes_on(self) -> None:
        words = [*self.words, "--format", "grid"]
        stopped = self.stopped([*words, "--output", str(self.table)], signal.SIGINT)
        message = "cg-table: stopped, after 6 of 16 questions"
        message += f"; --resume {self.table} goes on from there\n"
        self.assertEqual(stopped, (130, "", message))
        process = int(self.runs.read_text().split()[-1])
        self.assertTrue(waits(lambda: ended(process)))
        self.assertFalse(self.table.exists())
        kept = self.part.read_bytes()
        self.assertEqual(kept.count(b"\n"), 7)
        status, written, told = run("cg-table", [*words, "--output", str(self.table)])
        self.assertEqual((status, written), (2, ""))
        self.assertRegex(told, "is left of a run that was stopped: go on with --resume")
        self.assertEqual(self.part.read_bytes(), kept)
        self.assertEqual(run("cg-table", [*words, "--resume", str(self.table)]), (0, "", ""))
        self.assertEqual(self.table.read_text(), GRID_OF_MEANS)
        self.assertFalse(self.part.exists())

    def test_a_killed_table_goes_on(self) -> None:
        self.stopped([*self.words, "--output", str(self.table)], signal.SIGKILL)
        process = int(self.runs.read_text().split()[-1])
        self.assertTrue(waits(lambda: ended(process)))
        with open(self.part, "ab") as file:
            file.write(b"mean {2|-")  # broken off
        self.assertEqual(run("cg-table", [*self.words, "--resume", str(self.table)]), (0, "", ""))
        self.assertEqual(self.table.read_text(), run("cg-table", MEANS)[1])

    def test_a_stopped_table_without_a_file(self) -> None:
        for number, wanted in [(signal.SIGINT, 130), (signal.SIGTERM, 143)]:
            status, written, told = self.stopped(self.words, number)
            self.assertEqual((status, written.count("\n")), (wanted, 7))
            self.assertRegex(told, "stopped, after 6 of 16 questions; with --output a later run")
            self.runs.unlink()
        status, written, _ = self.stopped([*self.words, "--format", "grid"], signal.SIGINT)
        grid = "rows \\ columns    1     2   3     4\n             1    0  -1/2  -1  -3/2\n"
        self.assertEqual((status, written), (130, grid + "             2  1/2     0\n"))

    def test_what_can_not_go_on(self) -> None:
        words = [*SQUARES, "--resume", str(self.table)]
        first = 'temp Domineering(".")\t'
        for text, told in [
            ("cg-table --share 9 --positions 9\n", "kept with other limits or definitions"),
            ("{header}" + first + "{bad}\n", "is spoilt"),
            ("{header}value 1\t1\n", "is of another table: it has the question 'value 1'"),
            ("{header}" + (first + "-1\n") * 17, "it has more replies than this one"),
        ]:
            text = text.replace("{header}", "cg-table --share 1048576 --positions 65536\n")
            self.part.write_text(text)
            with self.subTest(text=text):
                status, written, message = run("cg-table", words)
                self.assertEqual((status, written, message.count("\n")), (2, "", 1))
                self.assertIn(told, message)
                self.assertEqual(self.part.read_text(), text)

    def test_resuming_what_never_began_or_is_whole(self) -> None:
        words = [*SQUARES, "--format", "grid", "--resume", str(self.table)]
        self.assertEqual(run("cg-table", words), (0, "", ""))
        self.assertEqual(self.table.read_text(), GRID)
        status, _, told = run("cg-table", words)
        self.assertEqual((status, self.table.read_text()), (2, GRID))
        self.assertRegex(told, "is there, and no .*table.part to go on from")

    def test_a_disk_that_is_full(self) -> None:
        with open("/dev/full", "wb") as full:
            words = [*command("cg-table"), *SQUARES]
            done = subprocess.run(
                words, stdout=full, stderr=subprocess.PIPE, env=environment(), check=False
            )
        self.assertEqual(
            (done.returncode, done.stderr),
            (4, b"cg-table: writing failed: No space left on device, after 0 of 16 questions; "
             b"with --output a later run could go on from there\n"),
        )
