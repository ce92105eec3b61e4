"""Short partizan games in Python: every answer is that of `cg`, a proved calculator.

>>> from cgcalc import Game, domineering
>>> g = domineering("...|...")
>>> g.value, g.mean, g.temperature
(Value(name='{2|-1/2}'), Fraction(3, 4), Fraction(5, 4))
>>> g > 0, (g + Game("^")).outcome
(False, 'N')

docs/LANGUAGE.md is the manual of the notation, and python/README.md that of this package.
"""
from cgcalc.board import Board
from cgcalc.boards import (
    amazons,
    clobber,
    col,
    domineering,
    hackenbush,
    octal,
    snort,
    strip,
    toads,
)
from cgcalc.cache import Cache
from cgcalc.defaults import default_session, use_session
from cgcalc.definitions import Definition
from cgcalc.errors import Refused, WrongCall
from cgcalc.game import Game
from cgcalc.options import game
from cgcalc.program import CgError, ProgramFailed, ProgramMissing, find_program
from cgcalc.refusals import Refusal
from cgcalc.replies import (
    Check,
    Failed,
    Mean,
    Order,
    Outcome,
    Proof,
    Reply,
    Stops,
    Temperature,
    read_reply,
)
from cgcalc.session import Session
from cgcalc.stream import Replies
from cgcalc.table import Table
from cgcalc.thermographs import Corner, Thermograph, Walls
from cgcalc.typed import Comparison
from cgcalc.values import Value
from cgcalc.version import VERSION as __version__

__all__ = [
    "Board",
    "Cache",
    "CgError",
    "Check",
    "Comparison",
    "Corner",
    "Definition",
    "Failed",
    "Game",
    "Mean",
    "Order",
    "Outcome",
    "ProgramFailed",
    "ProgramMissing",
    "Proof",
    "Refusal",
    "Refused",
    "Replies",
    "Reply",
    "Session",
    "Stops",
    "Table",
    "Temperature",
    "Thermograph",
    "Value",
    "Walls",
    "WrongCall",
    "__version__",
    "amazons",
    "clobber",
    "col",
    "default_session",
    "domineering",
    "find_program",
    "game",
    "hackenbush",
    "octal",
    "read_reply",
    "snort",
    "strip",
    "toads",
    "use_session",
]
