"""Which session games ask: their own, or the default one."""
from __future__ import annotations

from typing import Optional

from cgcalc.errors import WrongCall
from cgcalc.session import Session

_chosen: list[Session] = []


def default_session() -> Session:
    """The session that games ask where they were made with no other."""
    if not _chosen:
        _chosen.append(Session())
    return _chosen[-1]


def use_session(session: Session) -> None:
    """Lets games that were made with no session ask this one from now on."""
    if not isinstance(session, Session):
        raise WrongCall(f"{session!r} is no session: give one such as Session(share=1_048_576)")
    _chosen[:] = [session]


def session_so_far() -> Optional[Session]:
    """The default session, or None as long as nothing was asked of it."""
    return _chosen[-1] if _chosen else None


def shared_session(one: Optional[Session], other: Optional[Session]) -> Optional[Session]:
    """The session that two games ask together: they may not have been made with different ones."""
    if one is None or other is None or one is other:
        return one or other
    raise WrongCall(
        "the games ask two different sessions: make one of them anew, by Game(g, session=..)"
    )
