"""The command cg-table: asks questions of many boards and writes a table of the answers.

    cg-table 'temp Domineering("{board}")' --rows 1-4 --columns 1-4 --fill .
"""
from __future__ import annotations

import argparse
import sys
from pathlib import Path
from typing import Optional, Sequence

from cgcalc.asked import check_question
from cgcalc.definitions import BINDS_NOTHING, Definition
from cgcalc.forms import FORMS
from cgcalc.files import is_special
from cgcalc.limits import CELLS
from cgcalc.part_file import PartFile
from cgcalc.program import CgError, ProgramFailed
from cgcalc.questions import Questions, questions_of, read_boards
from cgcalc.refusals import Refusal
from cgcalc.replies import Failed
from cgcalc.session import Session
from cgcalc.sinks import FiledTable, PrintedTable, Sink
from cgcalc.table import Table
from cgcalc.tool import (
    BAD_USE,
    PIPE_CLOSED,
    REFUSED,
    STOPPED,
    WRITE_FAILED,
    BadUse,
    CommandLine,
    end_by_signals,
    status_of,
    tell,
)

COMMAND = "cg-table"


def main(words: Optional[Sequence[str]] = None) -> int:
    """Runs the command, and gives its status."""
    options = read_words(words)
    end_by_signals()
    try:
        questions = asked(options)
        session = session_of(options, questions)
        sink = sink_of(options, questions)
        return fill(sink, session, options)
    except CgError as bad:
        tell(COMMAND, str(bad))
        return BAD_USE
    except BrokenPipeError:
        return PIPE_CLOSED
    except OSError as error:
        tell(COMMAND, f"writing failed: {error.strerror}")
        return WRITE_FAILED
    except KeyboardInterrupt:
        tell(COMMAND, "stopped")
        return STOPPED


def read_words(words: Optional[Sequence[str]]) -> argparse.Namespace:
    """The options that the words of the command line give."""
    reader = CommandLine(
        prog=COMMAND,
        description="Asks questions of many boards and writes a table of the answers.",
        epilog="The status is 1 where a question was refused; standard error then tells why.",
    )
    add = reader.add_argument
    add(
        "questions",
        nargs="+",
        metavar="question",
        help="a question with {board}, {rows} or {columns} in it",
    )
    sizes = "ask of boards with so many {}, as 3, 1-4 or 0,2,5"
    add("--rows", metavar="SIZES", help=sizes.format("rows"))
    add("--columns", metavar="SIZES", help=sizes.format("columns"))
    add("--fill", metavar="TEXT", help="the symbol that fills the boards, or several in turn")
    add("--boards", metavar="FILE", help="ask of the boards in a file, one a line (- for stdin)")
    named = "a definition, as 'g := {2|-1}', whose name the questions may use"
    add("--define", metavar="DEFINITION", action="append", default=[], help=named)
    add("--output", metavar="FILE", help="write to FILE, by way of FILE.part")
    add("--resume", metavar="FILE", help="write to FILE, and go on from FILE.part if it is there")
    again = "with --resume: ask the questions again that failed or took too long"
    add("--retry-failed", action="store_true", help=again)
    add("--keep-going", action="store_true", help="go on where a question fails or takes too long")
    add("--format", choices=FORMS, help="the form of the table")
    add("--processes", type=int, metavar="N", help="runs of cg at once (one for each processor)")
    reader.add_limits()
    reader.add_runs()
    cells = f"the most cells of a run's table ({CELLS})"
    add("--cells", type=int, default=CELLS, metavar="C", help=cells)
    reader.add_version()
    return reader.parse_intermixed_args(words)


def asked(options: argparse.Namespace) -> Questions:
    """The questions that the options ask for."""
    by_size = options.rows is not None or options.columns is not None
    if by_size == (options.boards is not None):
        raise BadUse("give either --rows and --columns, or --boards")
    boards = None if by_size else read_boards(options.boards)
    return questions_of(options.questions, boards, options.rows, options.columns, options.fill)


def session_of(options: argparse.Namespace, questions: Questions) -> Session:
    """The session that answers the questions, once they are seen to be some."""
    for entry in questions.entries:
        check_question(entry.question)
    session = Session(
        share=options.share,
        positions=options.positions,
        cells=options.cells,
        processes=options.processes,
        timeout=options.timeout,
        memory=options.memory,
        cache=options.cache,
    )
    for line in options.define:
        define(session, line)
    return session


def define(session: Session, line: str) -> None:
    """Defines what a definition of the command line says."""
    definition = Definition.read(line)
    if definition is None:
        raise BadUse(f"--define is a name, := and a game, not {line!r}")
    reply = session.bind(definition)
    if isinstance(reply, Refusal) and reply.kind in BINDS_NOTHING:
        raise BadUse(f"{definition.line} is refused by {reply}: {reply.explain(definition.line)}")


def sink_of(options: argparse.Namespace, questions: Questions) -> Sink:
    """The table, and where it goes."""
    resumes = options.resume is not None
    if resumes and options.output is not None:
        raise BadUse("give either --output or --resume")
    if options.retry_failed and not resumes:
        raise BadUse("--retry-failed goes with --resume")
    one = len(questions.templates) == 1
    if options.format == "grid" and not (one and questions.headings == ["rows", "columns"]):
        raise BadUse("--format grid needs --rows and --columns, and one question")
    name = options.resume if resumes else options.output
    form = options.format or ("tsv" if name or not sys.stdout.isatty() else "aligned")
    table = Table(questions)
    if name is None:
        return PrintedTable(table, form)
    if not name or Path(name).is_dir():
        raise BadUse(f"{name!r} is no name of a file")
    if is_special(Path(name)):
        if resumes:
            raise BadUse(f"{name} is no file to go on from")
        return FiledTable(table, form, Path(name), None, False)
    limits = [f"--share {options.share} --positions {options.positions}"]
    limits += [f"--define {line!r}" for line in options.define]
    return FiledTable(table, form, Path(name), PartFile(Path(name), " ".join(limits)), resumes)


def fill(sink: Sink, session: Session, options: argparse.Namespace) -> int:
    """Asks what is left to ask, writes the table, and gives the status."""
    try:
        sink.begin()
        if options.retry_failed:
            ask_again(sink, session)
        ask(sink, session, options.keep_going)
    except KeyboardInterrupt:
        return stop(sink, "stopped", STOPPED)
    except SystemExit as ended:
        return stop(sink, "stopped", int(ended.code or 0))
    except ProgramFailed as failed:
        question = sink.table.left[0].question
        why = f"{failed}, on {question}; --keep-going goes on beyond it"
        return stop(sink, why, status_of(failed.status))
    except CgError as error:
        return stop(sink, str(error), BAD_USE)
    except BrokenPipeError:
        raise
    except OSError as error:
        return tell_stop(sink, f"writing failed: {error.strerror}", WRITE_FAILED)
    return end(sink)


def end(sink: Sink) -> int:
    """Writes the table, all of which is asked, and gives the status."""
    try:
        sink.end()
    except BrokenPipeError:
        raise
    except OSError as error:
        return tell_stop(sink, f"writing failed: {error.strerror}", WRITE_FAILED)
    for explanation in sink.table.explanations():
        tell(COMMAND, explanation)
    if sink.table.failed and isinstance(sink, FiledTable) and sink.part is not None:
        tell(COMMAND, f"--resume {sink.file} --retry-failed asks again what failed")
    return status_at_end(sink.table)


def status_at_end(table: Table) -> int:
    """The status where all is asked: that of the first failure, or else whether one is refused."""
    failed = (reply.status for reply in table.replies if isinstance(reply, Failed))
    refused = any(reply.refused for reply in table.replies)
    return next(map(status_of, failed), REFUSED if refused else 0)


def ask(sink: Sink, session: Session, keeps_going: bool) -> None:
    """Asks what is left to ask, and shows at a terminal how far the table is."""
    table = sink.table
    show(table.progress())
    with session.replies([entry.question for entry in table.left]) as replies:
        for reply in replies:
            show("")
            if isinstance(reply, Failed) and not keeps_going:
                raise reply.error()
            sink.add(reply)
            show(table.progress())
    show("")


def ask_again(sink: Sink, session: Session) -> None:
    """Asks the questions again that failed in an earlier run."""
    failed = sink.table.failed
    questions = [sink.table.entries[number].question for number in failed]
    with session.replies(questions) as replies:
        for number, reply in zip(failed, replies):
            if not isinstance(reply, Failed):
                sink.mend(number, reply)


def show(progress: str) -> None:
    """Shows a text in place of the last one, where standard error is a terminal."""
    if sys.stderr.isatty():
        print(f"\r\033[K{progress}", end="", file=sys.stderr, flush=True)


def stop(sink: Sink, why: str, status: int) -> int:
    """Leaves what there is where it is of use, says so, and gives the status."""
    show("")
    sink.stop()
    return tell_stop(sink, why, status)


def tell_stop(sink: Sink, why: str, status: int) -> int:
    """Says why no more is asked, how far the table is and how it goes on, and gives the status."""
    tell(COMMAND, f"{why}, after {sink.table.progress()} questions; {sink.way_on()}")
    return status
