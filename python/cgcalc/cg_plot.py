"""The command cg-plot: draws the thermographs of expressions, or their boards, in SVG."""
from __future__ import annotations

import argparse
import sys
from pathlib import Path
from typing import Optional, Sequence

from cgcalc.board import read_board
from cgcalc.board_pictures import board_picture
from cgcalc.errors import Refused
from cgcalc.files import write_whole
from cgcalc.game import Game
from cgcalc.pictures import thermograph_picture
from cgcalc.program import CgError, ProgramFailed
from cgcalc.session import Session
from cgcalc.svg import Picture, side_by_side
from cgcalc.tool import (
    BAD_USE,
    PIPE_CLOSED,
    REFUSED,
    STOPPED,
    WRITE_FAILED,
    BadUse,
    CommandLine,
    end_by_signals,
    status_of,
    tell,
    write_output,
)

COMMAND = "cg-plot"
HEIGHTS = range(40, 4_001)


def main(words: Optional[Sequence[str]] = None) -> int:
    """Draws what the words of the command line ask for, and gives the status."""
    options = read_words(words)
    end_by_signals()
    try:
        picture = side_by_side(pictures_of(options))
        write(picture.svg(), options.output)
        return 0
    except Refused as refused:
        tell(COMMAND, str(refused))
        return REFUSED
    except ProgramFailed as failed:
        tell(COMMAND, str(failed))
        return status_of(failed.status)
    except (BadUse, CgError, ValueError) as error:
        tell(COMMAND, str(error))
        return BAD_USE
    except BrokenPipeError:
        return PIPE_CLOSED
    except OSError as error:
        tell(COMMAND, f"the picture can't be written: {error.strerror}")
        return WRITE_FAILED
    except KeyboardInterrupt:
        return STOPPED


def read_words(words: Optional[Sequence[str]]) -> argparse.Namespace:
    """The words of the command line."""
    reader = CommandLine(
        prog=COMMAND,
        description="Draws the thermograph of each expression, side by side, in SVG.",
    )
    reader.add_argument("expressions", nargs="+", metavar="E", help="what is drawn, as {4||2|0}")
    reader.add_argument(
        "-o", "--output", type=Path, metavar="FILE", help="the file; else standard output"
    )
    reader.add_argument("--board", action="store_true", help="draws boards, not thermographs")
    reader.add_argument(
        "--height", type=int, default=260, metavar="N", help="pixels of walls and mast (260)"
    )
    reader.add_argument("--untitled", action="store_true", help="no expression above the picture")
    reader.add_version()
    reader.add_limits()
    reader.add_runs()
    return reader.parse_args(words)


def pictures_of(options: argparse.Namespace) -> list[Picture]:
    """The pictures in their order."""
    if options.height not in HEIGHTS:
        raise BadUse(f"--height is a number from {HEIGHTS[0]} to {HEIGHTS[-1]}")
    if options.board:
        return [picture_of_board(expression) for expression in options.expressions]
    session = Session(
        share=options.share,
        positions=options.positions,
        timeout=options.timeout,
        memory=options.memory,
        cache=options.cache,
    )
    pictures = []
    for expression in options.expressions:
        thermograph = Game(expression, session=session).thermograph
        title = None if options.untitled else expression
        pictures.append(thermograph_picture(thermograph, title=title, height=options.height))
    return pictures


def picture_of_board(expression: str) -> Picture:
    """The picture of an expression that is a board."""
    board = read_board(expression)
    picture = board_picture(board) if board else None
    if picture is None:
        raise BadUse(f'{expression} is no board that can be drawn, such as Clobber("xo|ox")')
    return picture


def write(text: str, output: Optional[Path]) -> None:
    """Writes to a file, which is never seen half written, or to standard output."""
    if output is None:
        write_output(text)
    else:
        write_whole(output, text.encode(errors="surrogateescape"))


if __name__ == "__main__":
    sys.exit(main())
