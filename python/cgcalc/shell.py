"""The lines of cg-shell: what is asked, what is commanded, and what is written for it."""
from __future__ import annotations

import re
import shutil
from dataclasses import replace
from pathlib import Path
from typing import Iterable, Iterator, Optional

from cgcalc.definitions import Definition, words_in
from cgcalc.drawing import drawn
from cgcalc.errors import WrongCall
from cgcalc.files import write_whole
from cgcalc.help import help_on, overview
from cgcalc.lines import BLANKS, SESSION_FORMAT
from cgcalc.program import CgError, ProgramFailed
from cgcalc.refusals import Refusal
from cgcalc.replies import Failed, Reply, word_of
from cgcalc.session import Session
from cgcalc.thermographs import Thermograph
from cgcalc.tool import BAD_USE, REFUSED, WRITE_FAILED, status_of, write_output

PLACELESS = ("lowering", "heap")
ADVICE = {
    "full": "; `:share N` gives a line more, and N was {share}",
    "positions": "; `:positions P` sets the limit, and P was {positions}",
}
FAILURE_ADVICE = {
    5: "; `:share N` with a smaller N takes less memory",
    6: "; the line and the definitions that it needs are one session",
    124: "; --timeout sets the limit",
}


class Shell:
    """Answers lines with a session, which keeps the definitions."""

    def __init__(self, session: Session) -> None:
        self.session = session
        self.status = 0
        self.worksheet: list[str] = []

    def serve_typed(self, lines: Iterator[str]) -> None:
        """Serves lines as they are typed: Ctrl-C ends what a line asked for, and not the shell."""
        while True:
            try:
                self.serve(lines)
                return
            except KeyboardInterrupt:
                say("stopped")

    def serve(self, lines: Iterable[str]) -> None:
        """Answers each line; `status` tells of refusals and failures.

        Blank lines and comments have no answer, nor has the line that begins a session with names.
        """
        for line in lines:
            text = line.strip(BLANKS)
            if text in (":quit", "quit", "exit"):
                return
            if text.startswith(":") or word_of(text) in ("help", "?") and ":=" not in text:
                self.obey(text)
            elif text and text != SESSION_FORMAT and not text.startswith("#"):
                self.answer(line)

    def answer(self, line: str) -> None:
        """Asks a line, and writes the reply."""
        definition = Definition.read(line)
        try:
            if definition:
                self.write(definition.line, self.session.bind(definition))
            elif word_of(line) == "plot":
                self.plot("thermo" + line.lstrip(BLANKS)[len("plot") :])
            elif is_expression(line, self.session.definitions):
                self.answer_value(line.strip(BLANKS))
            else:
                (reply,) = self.session.ask([line])
                self.write(line, reply)
        except ProgramFailed as failed:
            self.tell_failure(failed)
        except CgError as error:
            self.status = BAD_USE
            say(str(error))

    def answer_value(self, expression: str) -> None:
        """Asks for the value of an expression that stands alone."""
        question = f"value {expression}"
        (reply,) = self.session.ask([question])
        self.note(question, reply)
        if isinstance(reply, Refusal) and reply.column is not None:
            reply = replace(reply, column=reply.column - len("value "))
        self.write(expression, reply, noted=True)

    def plot(self, question: str) -> None:
        """Draws the thermograph that a question asks for."""
        (reply,) = self.session.ask([question])
        if isinstance(reply, Thermograph):
            self.note(question, reply)
            say(drawn(reply))
        else:
            self.write(question, reply)

    def tell_failure(self, failed: ProgramFailed) -> None:
        """Says how a run failed."""
        self.status = status_of(failed.status)
        say(f"{failed}{FAILURE_ADVICE.get(failed.status, '')}")

    def note(self, line: str, reply: Reply) -> None:
        """Keeps what was asked or defined, and the reply, for the worksheet."""
        self.worksheet += [line, f"# {reply}"]

    def write(self, line: str, reply: Reply, noted: bool = False) -> None:
        """Writes a reply. A refusal has its line, a caret where it points, and what it means."""
        if not noted:
            self.note(line, reply)
        if isinstance(reply, Failed):
            self.tell_failure(reply.error())
            return
        if not isinstance(reply, Refusal):
            say(str(reply))
            return
        self.status = self.status or REFUSED
        column = column_of(line, reply, self.session.definitions)
        if column is not None:
            say(pointed(line, column, shutil.get_terminal_size().columns - 1))
        advice = ADVICE.get(reply.kind, "").format(
            share=self.session.share, positions=self.session.positions
        )
        say(f"{reply}: {reply.explain(line)}{advice}")

    def obey(self, line: str) -> None:
        """Does what a command of the shell's own says."""
        command, *words = line.split()
        if command in (":help", "help", "?", ":?") and len(words) < 2:
            self.help(*words)
        elif command == ":names" and not words:
            for name, text in self.session.definitions.items():
                say(f"{name} := {text}")
        elif command == ":save" and words:
            self.save(path_of(line[len(command) :]))
        elif command == ":load" and words:
            self.load(path_of(line[len(command) :]))
        elif command in (":share", ":positions") and len(words) == 1:
            self.set_limit(command[1:], words[0])
        else:
            self.status = BAD_USE
            say(f"`{' '.join([command, *words])}` is no command; `:help` tells them")

    def save(self, path: Path) -> None:
        """Writes what was asked and defined so far as a session that the program answers."""
        text = "".join(f"{line}\n" for line in [SESSION_FORMAT, *self.worksheet])
        try:
            write_whole(path, text.encode(errors="surrogateescape"))
        except OSError as error:
            self.status = WRITE_FAILED
            say(f"{path} can't be written: {error.strerror}")

    def load(self, path: Path) -> None:
        """Answers the lines of a file that are questions or definitions."""
        try:
            text = path.read_bytes().decode(errors="surrogateescape")
        except OSError as error:
            self.status = BAD_USE
            say(f"{path} can't be read: {error.strerror}")
            return
        lines = (line for line in text.split("\n") if not line.lstrip(BLANKS).startswith(":"))
        self.serve(lines)

    def help(self, topic: str = "") -> None:
        """Tells what can be typed, or what there is to tell of a topic."""
        told = help_on(topic) if topic else overview()
        if told is None:
            self.status = BAD_USE
            told = f"there is nothing to tell of `{topic}`; `:help` tells what can be typed"
        say(told)

    def set_limit(self, name: str, text: str) -> None:
        """Sets what a line may take."""
        limits = {"share": self.session.share, "positions": self.session.positions}
        limits[name] = int(text) if text.isdecimal() else 0
        try:
            self.session.set_limits(**limits)
        except WrongCall as error:
            self.status = BAD_USE
            say(str(error))


def is_expression(line: str, names: Iterable[str]) -> bool:
    """Whether a line is an expression alone: it begins with none of the words of questions.

    >>> [is_expression(line, ["g"]) for line in ("{2|1}", "g + 1", "v3*", "value g", "valeu g")]
    [True, True, True, False, False]
    """
    text = line.strip(BLANKS)
    first = re.match("[a-z][a-z0-9]*", text)
    return not first or first[0] in names or re.fullmatch("v+[0-9]*", first[0]) is not None


def path_of(text: str) -> Path:
    """The path that is typed, in which `~` is the home folder.

    >>> path_of(" my sheets/one ")
    PosixPath('my sheets/one')
    """
    path = Path(text.strip(BLANKS))
    try:
        return path.expanduser()
    except RuntimeError:  # there is no such home folder
        return path


def say(text: str) -> None:
    """Writes a line to standard output at once."""
    write_output(text + "\n")


def column_of(line: str, refusal: Refusal, names: Iterable[str]) -> Optional[int]:
    """The column where a refusal points, in bytes from 1, where that is known.

    A place in a board is known where the line has one text alone, and no name with another.

    >>> column_of('value Clobber("xa")', Refusal("board", cause="symbol", place=2), [])
    17
    """
    if refusal.kind != "board":
        return refusal.column
    before, _, behind = line.partition('"')
    outside = before.rpartition(":=")[2] + behind.partition('"')[2]
    if line.count('"') != 2 or refusal.cause in PLACELESS or words_in(outside).intersection(names):
        return None
    return len(before.encode(errors="surrogateescape")) + 1 + (refusal.place or 0)


def pointed(line: str, column: int, width: int) -> str:
    """A line with a caret below a column, cut to a width where it is longer.

    >>> print(pointed("value {1,2}", 11, 80))
    value {1,2}
              ^
    """
    before = line.encode(errors="surrogateescape")[: column - 1].decode(errors="replace")
    shown = "".join(letter if letter.isprintable() else "?" for letter in line)
    start = max(0, len(before) - width // 2) if len(shown) >= width else 0
    return f"{shown[start : start + width]}\n{' ' * (len(before) - start)}^"
