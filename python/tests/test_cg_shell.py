"""The command cg-shell, at a pseudo-terminal and in a pipe."""
from __future__ import annotations

import os
import pty
import re
import select
import signal
import subprocess
import tempfile
import time
import unittest
from importlib.util import find_spec
from pathlib import Path
from typing import Sequence
from unittest import mock

from cgcalc import find_program
from cgcalc.completion import fitting, start_completion
from cgcalc.games import FORMS, GAMES
from cgcalc.help import BOARDS, EXPRESSIONS, QUESTIONS
from cgcalc.replies import READERS
from tests.places import ROOT, command, environment, program, run, waits

PROMPT = "cg> "
BELL = "\x07"
WELCOME = "cg-shell: a question on each line; `:help` tells more, Ctrl-D ends\n"


needs_readline = unittest.skipUnless(find_spec("readline"), "this Python has no readline")


class Terminal:
    """The command at a pseudo-terminal."""

    def __init__(self, words: Sequence[str] = (), **changes: str) -> None:
        variables = environment(TERM="dumb", INPUTRC="/dev/null", COLUMNS="60", **changes)
        words = [*command("cg-shell"), *words]
        self.process, self.handle = pty.fork()
        if self.process == 0:
            os.execve(words[0], words, variables)
        self.ended = False

    def read(self, wanted: str = PROMPT) -> str:
        """What is shown up to the next place where it ends with the wanted text, without that."""
        shown, end = "", time.monotonic() + 300
        while not shown.endswith(wanted) and time.monotonic() < end:
            if select.select([self.handle], [], [], 1)[0]:
                try:
                    shown += os.read(self.handle, 1).decode().replace("\r", "")
                except OSError:  # the other end is closed
                    break
        if not shown.endswith(wanted):
            raise AssertionError(f"{wanted!r} isn't shown, but {shown!r}")
        return shown[: len(shown) - len(wanted)]

    def type(self, keys: str) -> None:
        """Types keys."""
        os.write(self.handle, keys.encode())

    def stop(self) -> None:
        """Types Ctrl-C when the command sleeps.

        Between the moment when Python shows a prompt or a key and the one when it waits for the
        next key, it keeps a Ctrl-C in mind until that key comes.
        """
        state = Path(f"/proc/{self.process}/stat")
        if not waits(lambda: state.read_text().rpartition(") ")[2].startswith("S")):
            raise AssertionError("the command doesn't wait for keys")
        self.type("\x03")

    def ask(self, line: str) -> str:
        """What is shown below a line that is typed."""
        self.type(line + "\n")
        self.read(line + "\n")
        return self.read()

    def status(self, number: int = 0) -> int:
        """The status at the end, which comes soon, where a signal is sent until it does."""
        for _ in range(3_000):
            os.kill(self.process, number)
            ended, status = os.waitpid(self.process, os.WNOHANG)
            if ended:
                self.ended = True
                return os.waitstatus_to_exitcode(status)
            time.sleep(0.1)
        raise AssertionError("the command doesn't end")

    def close(self) -> None:
        """Ends the command if it hasn't ended."""
        if not self.ended:
            self.status(signal.SIGKILL)
        os.close(self.handle)


class AtATerminal(unittest.TestCase):
    """What is shown to one who types."""

    def setUp(self) -> None:
        holder = tempfile.TemporaryDirectory()
        self.addCleanup(holder.cleanup)
        self.folder = Path(holder.name)
        self.history = self.folder / "history"

    def terminal(self, *words: str, **changes: str) -> Terminal:
        terminal = Terminal(words, CG_HISTORY=str(self.history), **changes)
        self.addCleanup(terminal.close)
        self.assertEqual(terminal.read(), WELCOME)
        return terminal

    def test_questions_definitions_and_refusals(self) -> None:
        terminal = self.terminal()
        self.assertEqual(terminal.ask("value {2,1|0}"), "{2|0}\n")
        self.assertEqual(terminal.ask("g := {2|-1} + ^"), "{2^|-1^}\n")
        self.assertEqual(terminal.ask("temp g"), "3/2\n")
        self.assertEqual(terminal.ask(":names"), "g := {2|-1} + ^\n")
        self.assertEqual(terminal.ask(""), "")
        self.assertEqual(terminal.ask("# a comment"), "")
        line, caret, refusal = terminal.ask("value {1,2}").splitlines()
        self.assertEqual((line, caret), ("value {1,2}", "          ^"))
        self.assertRegex(refusal, "^! syntax 11: no line of the notation goes on like this")
        terminal.type("\x04")
        terminal.read("\n")
        self.assertEqual(terminal.status(), 0)

    @needs_readline
    def test_words_are_completed(self) -> None:
        terminal = self.terminal()
        terminal.ask("gazebo := 3/4")
        for keys, line in [
            ("me\t", "mean "),
            ("gaz\t", "gazebo"),
            (" + 2.Clo\t", ' + 2.Clobber("'),
            ("xo\t", "xo"),
            ('")\n', '")\n'),
        ]:
            terminal.type(keys)
            self.assertEqual(terminal.read(line).replace(BELL, ""), "")
        self.assertEqual(terminal.read(), "3/4\n")
        terminal.type(":na\t\n")
        terminal.read(":names\n")
        self.assertEqual(terminal.read(), "gazebo := 3/4\n")

    @needs_readline
    def test_history_is_kept(self) -> None:
        terminal = self.terminal()
        terminal.ask("value {1|-1}")
        terminal.type(":quit\n")
        self.assertEqual(terminal.status(), 0)
        self.assertEqual(self.history.read_text(), "value {1|-1}\n:quit\n")
        self.assertEqual(os.listdir(self.folder), ["history"])
        terminal = self.terminal()
        terminal.type("\x10\x10\n")  # twice to the line before
        terminal.read("value {1|-1}\n")
        self.assertEqual(terminal.read(), "+-1\n")

    @needs_readline
    def test_two_shells_keep_one_history(self) -> None:
        self.history.write_text("value 0\n")
        first, second = self.terminal(), self.terminal()
        for number, terminal in enumerate((second, first), 1):
            terminal.ask(f"value {number}")
            terminal.type(":quit\n")
            self.assertEqual(terminal.status(), 0)
        written = "value 0\nvalue 1\n:quit\nvalue 2\n:quit\n"
        self.assertEqual(self.history.read_text(), written)

    @needs_readline
    def test_a_history_that_can_not_be_kept(self) -> None:
        terminal = Terminal(CG_HISTORY="/nowhere/history")
        self.addCleanup(terminal.close)
        terminal.read()
        terminal.type(":quit\n")
        terminal.read("the history isn't kept in /nowhere/history: No such file or directory\n")
        self.assertEqual(terminal.status(), 0)

    def test_statuses_are_explained(self) -> None:
        script = f'exit $(cat "{self.folder}/status")'
        terminal = self.terminal(CG=program(self.folder, script))
        for status, told in [
            (3, "reading the input failed"),
            (4, "writing the output failed"),
            (5, "memory was wanting; `:share N` with a smaller N takes less memory"),
            (6, "the session is too long: it has more than 1,048,576 bytes, .*are one session"),
            (7, "the words of the command line couldn't be got, as where one isn't UTF-8"),
        ]:
            Path(self.folder, "status").write_text(str(status))
            self.assertRegex(terminal.ask("value 1"), f"^cg ended with status {status}: {told}\n$")

    def test_a_question_is_stopped(self) -> None:
        script = 'echo $$ > "$0.process"; exec sleep 1000'
        terminal = self.terminal(CG=program(self.folder, script))
        terminal.type("value 1\n")
        terminal.read("value 1\n")
        process = self.folder / "program.process"
        while not process.exists() or not process.read_text():
            time.sleep(0.02)
        terminal.stop()
        self.assertEqual(terminal.read().replace("^C", ""), "stopped\n")
        with self.assertRaises(ProcessLookupError):
            os.kill(int(process.read_text()), 0)
        terminal.type("value 2")
        terminal.read("value 2")
        terminal.stop()
        terminal.read()
        terminal.type(":quit\n")
        self.assertEqual(terminal.status(), 0)

    def test_what_is_loaded_is_stopped_as_a_whole(self) -> None:
        script = 'echo $$ >> "$0.process"; exec sleep 1000'
        terminal = self.terminal(CG=program(self.folder, script))
        sheet = self.folder / "sheet"
        sheet.write_text("value 1\nvalue 2\nvalue 3\n")
        terminal.type(f":load {sheet}\n")
        processes = self.folder / "program.process"
        self.assertTrue(waits(lambda: processes.exists() and processes.read_text() != ""))
        terminal.stop()
        self.assertTrue(terminal.read().endswith("stopped\n"))
        self.assertEqual(len(processes.read_text().split()), 1)
        self.assertEqual(terminal.ask(":names"), "")

    @needs_readline
    def test_a_signal_ends_it_in_good_order(self) -> None:
        terminal = self.terminal()
        terminal.ask("value 1")
        self.assertEqual(terminal.status(signal.SIGTERM), 128 + signal.SIGTERM)
        self.assertEqual(self.history.read_text(), "value 1\n")

    def test_long_lines_are_cut_round_the_caret(self) -> None:
        terminal = self.terminal()
        terminal.type("value " + "1 + " * 40 + "x" + " + 1" * 40 + "\n")
        line, caret, refusal = terminal.read().splitlines()[-3:]
        self.assertEqual(len(line), 59)
        self.assertEqual(line[caret.index("^")], "x")
        self.assertIn("! name 167", refusal)


class Editing(unittest.TestCase):
    """What the tab key is told, by GNU readline and by libedit."""

    def test_words_by_what_stands_before_them(self) -> None:
        for before, begun, wanted in [
            ("", "out", ["outcome "]),
            ("", ":s", [":save ", ":share "]),
            ("", "ga", ["gaz := "]),
            ("value 1 + ", "g", ["gaz"]),
            ("h := ", "Dom", ['Domineering("']),
            (":help ", "ther", ["thermo"]),
            (":share ", "", []),
            ('value Toads("T.', "g", []),
            ('value Toads("T.") + ', "To", ['Toads("']),
            ("plot ", "Sno", ['Snort("']),
        ]:
            with self.subTest(before=before):
                self.assertEqual(fitting(before, begun, ["gaz"]), wanted)

    def test_libedit_is_told_in_its_own_words(self) -> None:
        for text, wanted in [
            ("command line editing using GNU readline.", "tab: complete"),
            ("command line editing using libedit readline.", "bind ^I rl_complete"),
        ]:
            module = mock.Mock(__doc__=text, backend=None)
            module.get_line_buffer.return_value, module.get_begidx.return_value = "value g", 6
            start_completion(module, lambda: ["gaz"])
            module.parse_and_bind.assert_called_once_with(wanted)
            (complete,) = module.set_completer.call_args[0]
            self.assertEqual((complete("g", 0), complete("g", 1)), ("gaz", None))


class InAPipe(unittest.TestCase):
    """What is written where standard input is no terminal."""

    def test_answers_and_status(self) -> None:
        self.assertEqual(
            run("cg-shell", [], "value 1\n\n# no\ng := 2\nvalue g"), (0, "1\n2\n2\n", "")
        )
        self.assertEqual(run("cg-shell", [], "value 6/3\nvalue 1\n")[0], 1)
        self.assertEqual(run("cg-shell", [], ":quit\nvalue 6/3\n"), (0, "", ""))

    def test_a_session_with_names(self) -> None:
        session = (ROOT / "examples" / "names.txt").read_text()
        wanted = subprocess.run([find_program()], input=session.encode(), stdout=subprocess.PIPE)
        answers = [line.partition(": ")[2] for line in wanted.stdout.decode().splitlines()]
        status, written, _ = run("cg-shell", [], session)
        shown = [line.partition(": ")[0] for line in written.splitlines()]
        self.assertEqual(status, 1)
        self.assertEqual(
            [line for line in shown if line not in ("value 2.rest - hall", " " * 15 + "^")], answers
        )

    def test_carets(self) -> None:
        rows = [
            ("value {1|", 10),
            ("value h", 7),
            ("valu\u00e9 1", 5),
            ("value \u00e9", 7),
            ("value (\u00e9)", 8),
            ('check 1 ; 1 ; "\u00e9"', 16),
            ("g := h", 6),
            ("  g:=h", 6),
            ('value Clobber("xa")', 17),
            ('value 3.Domineering("..|.")', 25),
            ('value Toads("xo") + Toads("TF")', None),
            ('value Strip("A=0,0,0;L:A>A","A")', None),
            ('value Octal("0.3",1001)', None),
            ("value 6/3", None),
        ]
        status, written, _ = run("cg-shell", [], "".join(f"{line}\n" for line, _ in rows))
        self.assertEqual(status, 1)
        shown = written.splitlines()
        for line, caret in rows:
            with self.subTest(line=line):
                if caret:
                    self.assertEqual(shown.pop(0), "g := h" if ":=" in line else line)
                    self.assertEqual(shown.pop(0), " " * (caret - 1) + "^")
                self.assertRegex(shown.pop(0), "^! .*: ")

    def test_a_name_may_stand_for_the_board_that_is_refused(self) -> None:
        lines = 'g := Clobber("xa")\nvalue g + Clobber("xo")\n'
        self.assertEqual(run("cg-shell", [], lines)[1].count("^"), 1)

    def test_limits(self) -> None:
        lines = "value {0|0}\n:share 4\nvalue {0|0}\n:share 5\nvalue {0|0}\n:positions 1\nvalue ^\n"
        status, written, _ = run("cg-shell", [], lines)
        self.assertEqual(status, 1)
        self.assertRegex(written, r"^\*\n! full: .*N was 4\n\*\n! positions: .*P was 1\n$")

    def test_commands_that_are_none(self) -> None:
        rows = [
            (":help more", "there is nothing to tell of `more`; `:help` tells what can be typed"),
            (":names more", "`:names more` is no command; `:help` tells them"),
            (":what", "`:what` is no command; `:help` tells them"),
            (":share", "`:share` is no command; `:help` tells them"),
            (":share x", "share must be a number from 1 to 67108864"),
            (":positions 0", "positions must be a number from 1 to 1048576"),
            (":", "`:` is no command; `:help` tells them"),
        ]
        status, written, _ = run("cg-shell", [], "".join(f"{line}\n" for line, _ in rows))
        self.assertEqual(status, 2)
        self.assertEqual(written.splitlines(), [told for _, told in rows])
        self.assertIn(":quit ", run("cg-shell", [], ":help\n")[1])

    def test_help(self) -> None:
        for typed in ("help", ":help", "?"):
            status, written, _ = run("cg-shell", [], f"{typed}\n")
            self.assertEqual(status, 0)
            for word in ("check E ; F", "plot E", "g := E", ":positions P", ":quit"):
                self.assertIn(word, written)
        for topic, told in [
            ("thermo", "thermo E: `mean m temp t left C right D`, with C and D the corners"),
            ("clobber", "Left: move an `x` onto an adjacent `o`, which is removed"),
            ("full", "! full: it would take more than its share"),
            ("ragged", "! ragged: the row that starts at place P"),
            (":share", ":share: `:share N` gives each line N cells"),
        ]:
            self.assertIn(told, run("cg-shell", [], f"help {topic}\n")[1])

    def test_help_is_what_the_manual_says(self) -> None:
        manual = (ROOT / "docs" / "LANGUAGE.md").read_text()
        for form, says in QUESTIONS.values():
            self.assertIn(f"\n| `{form}` | {says} |\n", manual)
        for form, says in EXPRESSIONS.values():
            self.assertRegex(manual, rf"\n- .*`{re.escape(form)}`.*: {re.escape(says)}\n")
        for game, columns in BOARDS.items():
            self.assertIn(f"| `{game}` | {' | '.join(columns)} |", manual)
        self.assertEqual(sorted([*EXPRESSIONS, *BOARDS]), sorted([*GAMES, *FORMS]))
        self.assertEqual(list(QUESTIONS), list(READERS))

    def test_lines_and_files_of_the_command_line(self) -> None:
        words = ["-c", "g := {2|0}", "-c", "temp g"]
        self.assertEqual(run("cg-shell", words), (0, "{2|0}\n1\n", ""))
        words = ["-c", "value 1", "examples/names.txt", "-"]
        status, written, _ = run("cg-shell", words, "value hall")
        self.assertEqual((status, written.splitlines()[0]), (1, "1"))
        self.assertEqual(written.count("! name"), 2)
        self.assertEqual(run("cg-shell", ["-c", "value 1\nvalue 2"]), (0, "1\n2\n", ""))
        self.assertRegex(run("cg-shell", ["--version"])[1], r"^cg-shell \(cgcalc\) [0-9.]+\n")

    def test_plots(self) -> None:
        status, written, _ = run("cg-shell", [], "g := +-1\nplot g\nplot {1|\n")
        mast = " " * 12
        wanted = [f" {mast}0", f" {mast}|", f"1{mast}|"]
        self.assertEqual((status, written.splitlines()[1:4]), (1, wanted))
        self.assertIn("0    /               \\\n     1              -1\nthermo {1|\n", written)

    def test_output_that_is_closed(self) -> None:
        running = subprocess.Popen(
            [*command("cg-shell"), "--share", "9", "-c", "value 1\n" * 100],
            stdout=subprocess.PIPE,
            stderr=subprocess.PIPE,
            env=environment(),
        )
        assert running.stdout and running.stderr
        running.stdout.readline()
        running.stdout.close()
        with running.stderr as told:
            self.assertEqual((running.wait(300), told.read()), (141, b""))

    def test_a_question_that_takes_too_long(self) -> None:
        with tempfile.TemporaryDirectory() as folder:
            slow = {"CG": program(Path(folder), "exec sleep 1000")}
            words = ["--timeout", "0.5", "-c", "value 1"]
            status, written, _ = run("cg-shell", words, changes=slow)
        told = "cg was stopped, since it took too long; --timeout sets the limit\n"
        self.assertEqual((status, written), (124, told))

    def test_no_prompt_where_one_end_is_no_terminal(self) -> None:
        here, there = pty.openpty()
        running = subprocess.Popen(
            command("cg-shell"), stdin=there, stdout=subprocess.PIPE, env=environment(TERM="dumb")
        )
        os.close(there)
        os.write(here, b"value 1\n:quit\n")
        written, _ = running.communicate(timeout=300)
        os.close(here)
        self.assertEqual((running.returncode, written), (0, b"1\n"))

    def test_a_program_that_fails(self) -> None:
        with tempfile.TemporaryDirectory() as folder:
            failing = {"CG": program(Path(folder), "exit 5")}
            status, written, told = run("cg-shell", [], "value 1\n", changes=failing)
        self.assertEqual((status, told), (5, ""))
        self.assertIn("memory was wanting", written)

    def test_bad_use(self) -> None:
        for words, told in [
            (["--share", "0"], "share must be a number from 1 to 67108864"),
            (["--positions", "many"], "invalid int value: 'many'"),
            (["nowhere"], "nowhere can't be read: No such file or directory"),
            (["--what"], "unrecognized arguments: --what"),
        ]:
            with self.subTest(words=words):
                status, written, message = run("cg-shell", words)
                self.assertEqual((status, written, message.count("\n")), (2, "", 1))
                self.assertIn(told, message)
        status, written, message = run("cg-shell", [], changes={"CG": "/nowhere"})
        self.assertEqual((status, written, message.count("\n")), (2, "", 1))


class Worksheets(unittest.TestCase):
    """Expressions alone, and files of what was asked."""

    def setUp(self) -> None:
        holder = tempfile.TemporaryDirectory()
        self.addCleanup(holder.cleanup)
        self.sheet = Path(holder.name, "sheet")

    def test_an_expression_alone_is_its_value(self) -> None:
        typed = "{2,1|0}\ng := 1\ng + ^\n-2\nv3*\nTiny(2)\n  (g)\nClobber(\"xo\")\n"
        written = "{2|0}\n1\n1^\n-2\nv3*\nTiny(2)\n1\n*\n"
        self.assertEqual(run("cg-shell", [], typed), (0, written, ""))

    def test_where_an_expression_is_refused(self) -> None:
        status, written, _ = run("cg-shell", [], "{1,2}\nnobody\n3 +\nTiny(x)\n")
        self.assertEqual(status, 1)
        shown = "{1,2}\n    ^\n! syntax 5: no line"
        self.assertTrue(written.startswith(shown), written)
        self.assertIn("3 +\n   ^\n! syntax 4: the line ends too early\n", written)
        self.assertIn("Tiny(x)\n     ^\n! syntax 6", written)
        self.assertIn("nobody\n", written)

    def test_a_worksheet_is_answered_by_the_program_and_by_the_shell(self) -> None:
        typed = "{2,1|0}\ng := 1\nvalue g + ^\ng := {g|0}\nplot g\n{1,2}\n"
        typed += f":save {self.sheet}\n"
        _, written, _ = run("cg-shell", [], typed)
        lines = self.sheet.read_text().splitlines()
        self.assertEqual(lines[0], "cg 2")
        replies = [line[2:] for line in lines if line.startswith("# ")]
        asked = subprocess.run(
            [find_program()], stdin=self.sheet.open(), stdout=subprocess.PIPE, check=False
        )
        answered = [line.partition(": ")[2] for line in asked.stdout.decode().splitlines()]
        self.assertEqual(answered, replies)
        self.assertEqual(answered[:4], ["{2|0}", "1", "1^", "{1|0}"])
        _, again, _ = run("cg-shell", [], f":load {self.sheet}\n:names\n")
        self.assertTrue(again.startswith("{2|0}\n1\n1^\n{1|0}\n"), again)
        self.assertTrue(again.endswith("g := {g|0}\n"), again)

    def test_names_of_files_as_people_type_them(self) -> None:
        home = {"HOME": str(self.sheet.parent)}
        self.assertEqual(run("cg-shell", [], "1\n:save ~/my  sheet \n", home), (0, "1\n", ""))
        self.assertTrue(Path(self.sheet.parent, "my  sheet").is_file())
        loaded = run("cg-shell", [], f":load {self.sheet.parent}/my  sheet\n", home)
        self.assertEqual(loaded, (0, "1\n", ""))

    def test_files_that_are_none(self) -> None:
        status, written, _ = run("cg-shell", [], f":load {self.sheet}\n1\n")
        told = f"{self.sheet} can't be read: No such file or directory\n1\n"
        self.assertEqual((status, written), (2, told))
        status, written, _ = run("cg-shell", [], f":save {self.sheet}/deep\n")
        self.assertEqual(status, 4)
        self.assertIn("can't be written: No such file or directory", written)
        self.sheet.write_text(":load sheet\n:quit\nvalue 2\n")
        self.assertEqual(run("cg-shell", [], f":load {self.sheet}\n"), (0, "2\n", ""))
