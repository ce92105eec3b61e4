"""The command cg-certify: writes answers as theorems for Coq, and has Coq check them."""
from __future__ import annotations

import argparse
import sys
from pathlib import Path
from typing import Optional, Sequence

from cgcalc.certify_coq import CLOSED, NotAccepted, check_text, compiled
from cgcalc.certify_files import file_text, statement_of
from cgcalc.certify_questions import Certificate, certificate_of
from cgcalc.errors import Refused
from cgcalc.files import write_whole
from cgcalc.program import CgError, ProgramFailed
from cgcalc.session import Session
from cgcalc.tool import (
    BAD_USE,
    PIPE_CLOSED,
    REFUSED,
    STOPPED,
    WRITE_FAILED,
    BadUse,
    CommandLine,
    end_by_signals,
    status_of,
    tell,
    write_output,
)

COMMAND = "cg-certify"
FORMAT = "cg 2"
DESCRIPTION = "Writes answers of cg as theorems for Coq, and has Coq check them."
EPILOG = (
    "The questions are value, compare, outcome and proof, as in `cg-certify --check 'value"
    ' Domineering("...|...")\'`. docs/CERTIFY.md says what is proved, and what is trusted.'
)


def main(words: Optional[Sequence[str]] = None) -> int:
    """Writes or checks what the words of the command line ask for, and gives the status."""
    options = read_words(words)
    end_by_signals()
    try:
        certify(options)
        return 0
    except Refused as refused:
        tell(COMMAND, str(refused))
        return REFUSED
    except NotAccepted as error:
        tell(COMMAND, str(error))
        return REFUSED
    except ProgramFailed as failed:
        tell(COMMAND, str(failed))
        return status_of(failed.status)
    except (BadUse, CgError) as error:
        tell(COMMAND, str(error))
        return BAD_USE
    except BrokenPipeError:
        return PIPE_CLOSED
    except (OSError, UnicodeError) as error:
        tell(COMMAND, f"a file can't be read or written: {error}")
        return WRITE_FAILED
    except KeyboardInterrupt:
        return STOPPED


def read_words(words: Optional[Sequence[str]]) -> argparse.Namespace:
    """The words of the command line."""
    reader = CommandLine(prog=COMMAND, description=DESCRIPTION, epilog=EPILOG)
    reader.add_argument("questions", nargs="*", metavar="QUESTION", help="as 'compare ^ ; *'")
    reader.add_argument(
        "--questions",
        dest="lines",
        metavar="FILE",
        help="more questions, one a line; - is standard input",
    )
    reader.add_argument(
        "-o", "--output", type=Path, metavar="FILE", help="the file for Coq; else standard output"
    )
    reader.add_argument("--check", action="store_true", help="has Coq check the file")
    reader.add_argument(
        "--check-file",
        type=Path,
        metavar="FILE",
        help="has Coq check a file that was written before",
    )
    reader.add_version()
    reader.add_limits()
    reader.add_runs()
    return reader.parse_args(words)


def certify(options: argparse.Namespace) -> None:
    """Writes a certificate of the questions and checks it, or checks one that is there."""
    if options.check_file:
        check_file(options)
        return
    session = Session(
        share=options.share,
        positions=options.positions,
        timeout=options.timeout,
        memory=options.memory,
        cache=options.cache,
    )
    certificate = certificate_of(questions_of(options), session)
    text = file_text(certificate)
    if options.output:
        write_whole(options.output, text.encode())
    elif not options.check:
        write_output(text)
    if options.check:
        check(text)
        write_output(summary(certificate))
    elif options.output:
        tell(COMMAND, f"cg-certify --check-file {options.output} has Coq check it")


def check_file(options: argparse.Namespace) -> None:
    """Has Coq check a file that is there."""
    if options.questions or options.lines or options.output:
        raise BadUse("--check-file takes no questions and no --output")
    check(options.check_file.read_text(encoding="utf-8"))
    write_output(f"{options.check_file}: accepted by Coq. {CLOSED}\n")


def check(text: str) -> None:
    """Has Coq check a file, whose theorems have to rest on no axiom."""
    told = check_text(text, compiled())
    if CLOSED not in told:
        raise NotAccepted(f"Coq accepts the file, but its theorems rest on more: {told.strip()}")


def questions_of(options: argparse.Namespace) -> list[str]:
    """The questions of the command line, then those of the file."""
    questions = list(options.questions)
    if options.lines:
        from_input = options.lines == "-"
        text = sys.stdin.read() if from_input else Path(options.lines).read_text(encoding="utf-8")
        lines = (line.strip(" \t\r") for line in text.split("\n"))
        questions += [line for line in lines if line and line != FORMAT and line[0] != "#"]
    if not questions:
        raise BadUse(f"there is no question ({COMMAND} --help tells the words)")
    return questions


def summary(certificate: Certificate) -> str:
    """The theorems that Coq has accepted, and what they rest on."""
    lines = []
    for answered in certificate.answers:
        lines.append(f"{answered.question.text}\n    {statement_of(answered)}")
    count = len(lines)
    lines.append(f"{count} theorem{'s' * (count > 1)} accepted by Coq. {CLOSED}")
    return "\n".join(lines) + "\n"


if __name__ == "__main__":
    sys.exit(main())
