"""The words of the notation that begin with a capital letter."""
from __future__ import annotations

GAMES = (
    "Amazons",
    "Clobber",
    "Col",
    "Domineering",
    "Hackenbush",
    "Octal",
    "Snort",
    "Strip",
    "Toads",
)
"""The games whose positions are written as texts."""
FORMS = ("Tiny", "Miny")
"""The games that a number alone tells."""
