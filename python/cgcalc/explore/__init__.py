"""The explorer: a page on which boards are drawn, valued, moved on and played.

`explore` shows it in a notebook, and the command cg-explore in the browser. Both need the packages
flask and waitress, the extra `cgcalc[explore]`.
"""
from __future__ import annotations

from typing import TYPE_CHECKING, Any

if TYPE_CHECKING:
    from cgcalc.explore.notebook import Explorer, explore

__all__ = ["Explorer", "explore"]


def __getattr__(name: str) -> Any:
    """What needs flask and waitress is loaded when it is wanted."""
    if name not in __all__:
        raise AttributeError(f"module {__name__!r} has no attribute {name!r}")
    from cgcalc.explore import notebook

    return getattr(notebook, name)
