"""The page in a notebook's frame, which hands the position back."""
from __future__ import annotations

import html
import threading
from typing import Optional

from cgcalc.explore.access import HOST, Access, listening, make_server
from cgcalc.explore.asking import Desk
from cgcalc.explore.kept import Limits
from cgcalc.explore.server import Site
from cgcalc.game import Game
from cgcalc.limits import SHARE
from cgcalc.moves.sums import sum_of
from cgcalc.operands import Expression, text_of
from cgcalc.program import find_program


class Explorer:
    """A page that shows a position, in a frame of a notebook.

    `position` is the game that the page shows now. `close` ends its server; so does the end of the
    notebook's Python.
    """

    def __init__(self, *parts: Expression, height: int = 900, share: int = SHARE) -> None:
        self.height = height
        self._desk = Desk(Limits(share=share), find_program())
        bound = listening(HOST, 0)
        self._access = Access((HOST, "localhost"), bound.getsockname()[1], framed=True)
        self._site = Site(self._desk, self._access)
        self._site.position = [text_of(part) for part in parts]
        self._server = make_server(self._site.app, bound)
        self._thread = threading.Thread(target=self._serve, daemon=True)
        self._thread.start()

    def _serve(self) -> None:
        try:
            self._server.run()
        except OSError:  # the server was closed while it waited
            pass

    @property
    def address(self) -> str:
        """The address of the page."""
        return self._access.address(HOST, self._site.position, framed=True)

    @property
    def position(self) -> Game:
        """The game that the page shows now."""
        return Game(sum_of(self._site.position))

    def close(self) -> None:
        """Ends the server of the page."""
        self._desk.close()
        self._server.close()

    def _repr_html_(self) -> str:
        """The frame, for notebooks."""
        source = html.escape(self.address, quote=True)
        style = f"width: 100%; height: {self.height}px; border: 1px solid #ccc"
        return f'<iframe src="{source}" style="{style}" title="cg explore"></iframe>'


def explore(*parts: Expression, height: int = 900, share: Optional[int] = None) -> Explorer:
    """Shows a position in a notebook, as `cg-explore` does in the browser.

    Several games are the parts of a sum. What comes back has the position that is shown in
    `position`, as a game.
    """
    return Explorer(*parts, height=height, share=share or SHARE)
