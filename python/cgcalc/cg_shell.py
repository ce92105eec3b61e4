"""The command cg-shell: answers questions one by one, and keeps definitions."""
from __future__ import annotations

import argparse
import io
import os
import sys
import tempfile
from pathlib import Path
from typing import Iterator, Optional, Sequence

from cgcalc.completion import start_completion
from cgcalc.files import write_whole
from cgcalc.program import CgError
from cgcalc.session import Session
from cgcalc.shell import Shell, say
from cgcalc.tool import (
    BAD_USE,
    PIPE_CLOSED,
    STOPPED,
    WRITE_FAILED,
    CommandLine,
    end_by_signals,
    tell,
)

try:
    import readline
except ImportError:  # a Python without it has neither history nor completion
    readline = None  # type: ignore[assignment]

COMMAND = "cg-shell"
PROMPT = "cg> "
MOST_HISTORY = 2_000


def main(words: Optional[Sequence[str]] = None) -> int:
    """Runs the command, and gives its status."""
    options = read_words(words)
    end_by_signals()
    try:
        session = Session(
            share=options.share,
            positions=options.positions,
            timeout=options.timeout,
            memory=options.memory,
            cache=options.cache,
        )
        shell = Shell(session)
        if options.line or options.files:
            return serve_given(shell, options.line, options.files)
        at_terminal = sys.stdin.isatty() and sys.stdout.isatty()
        return serve_terminal(shell) if at_terminal else serve_pipe(shell)
    except CgError as error:
        tell(COMMAND, str(error))
        return BAD_USE
    except KeyboardInterrupt:
        return STOPPED
    except BrokenPipeError:
        return PIPE_CLOSED
    except OSError as error:
        tell(COMMAND, f"writing failed: {error.strerror}")
        return WRITE_FAILED


def read_words(words: Optional[Sequence[str]]) -> argparse.Namespace:
    """The options that the words of the command line give."""
    reader = CommandLine(
        prog=COMMAND,
        description="Answers questions one by one, and keeps definitions; `:help` tells more.",
        epilog="The history is kept in ~/.cg_history, or in the file that CG_HISTORY names.",
    )
    line = "answer this line, then the files; it may be given several times"
    files = "answer the lines of these files (- for standard input)"
    reader.add_argument("-c", dest="line", metavar="LINE", action="append", default=[], help=line)
    reader.add_argument("files", nargs="*", metavar="FILE", help=files)
    reader.add_limits()
    reader.add_runs()
    reader.add_version()
    return reader.parse_args(words)


def serve_given(shell: Shell, given: Sequence[str], files: Sequence[str]) -> int:
    """Answers lines that the command line gives, then those of files, and gives the status."""
    texts = []
    for name in files:
        try:
            texts.append(sys.stdin.buffer.read() if name == "-" else Path(name).read_bytes())
        except OSError as error:
            tell(COMMAND, f"{name} can't be read: {error.strerror}")
            return BAD_USE
    lines = [line for text in texts for line in text.decode(errors="surrogateescape").split("\n")]
    shell.serve([part for line in given for part in line.split("\n")] + lines)
    return shell.status


def serve_pipe(shell: Shell) -> int:
    """Answers the lines of standard input, and gives the status."""
    shell.serve(line.decode(errors="surrogateescape").rstrip("\n") for line in sys.stdin.buffer)
    return shell.status


def serve_terminal(shell: Shell) -> int:
    """Answers the lines that are typed, and gives the status."""
    history = history_place()
    known = start_editing(shell, history)
    say(f"{COMMAND}: a question on each line; `:help` tells more, Ctrl-D ends")
    try:
        shell.serve_typed(typed_lines())
    finally:
        keep_history(history, known)
    return 0


def history_place() -> Optional[Path]:
    """Where the history is kept; nowhere without a home folder."""
    named = os.environ.get("CG_HISTORY")
    try:
        return Path(named) if named else Path.home() / ".cg_history"
    except RuntimeError:
        return None


def typed_lines() -> Iterator[str]:
    """The lines that are typed, up to Ctrl-D. Ctrl-C drops the line."""
    if isinstance(sys.stdin, io.TextIOWrapper):
        sys.stdin.reconfigure(errors="surrogateescape")
    while True:
        try:
            yield input(PROMPT)
        except KeyboardInterrupt:
            say("")
        except EOFError:
            say("")
            return


def start_editing(shell: Shell, history: Optional[Path]) -> int:
    """Lets the arrow keys find earlier lines, and the tab key complete words.

    It gives the number of the earlier lines.
    """
    if readline is None:
        return 0
    start_completion(readline, lambda: shell.session.definitions)
    try:
        if history is not None:
            readline.read_history_file(str(history))
    except OSError:
        pass  # there is none yet
    return readline.get_current_history_length()


def keep_history(history: Optional[Path], known: int) -> None:
    """Adds what was typed to the history, which other shells may have written to meanwhile."""
    if readline is None or history is None:
        return
    count = readline.get_current_history_length()
    typed = [readline.get_history_item(place) for place in range(known + 1, count + 1)]
    try:
        if history.is_file():
            readline.clear_history()
            readline.read_history_file(str(history))
            for line in typed:
                readline.add_history(line)
        readline.set_history_length(MOST_HISTORY)
        with tempfile.TemporaryDirectory() as folder:
            written = Path(folder, "history")
            readline.write_history_file(str(written))
            write_whole(history, written.read_bytes())
    except OSError as error:
        tell(COMMAND, f"the history isn't kept in {history}: {error.strerror}")
