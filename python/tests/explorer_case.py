"""What the tests of the explorer's page have in common: a server and a browser."""
from __future__ import annotations

import unittest
from typing import ClassVar

from tests.explorer import Browser, Server

KEYS = {
    "down": "\ue015",
    "right": "\ue014",
    "tab": "\ue004",
    "enter": "\ue007",
    "control": "\ue009",
}


class PageCase(unittest.TestCase):
    """One server and one browser for all tests; each opens its own position."""

    server: ClassVar[Server]
    browser: ClassVar[Browser]

    @classmethod
    def setUpClass(cls) -> None:
        cls.server = Server("--timeout", "120")
        cls.addClassCleanup(cls.server.end)
        cls.browser = Browser()
        cls.addClassCleanup(cls.browser.close)

    def setUp(self) -> None:
        self.browser.size(1400, 1100)
        self.browser.scheme("light")

    def tearDown(self) -> None:
        complaints = [
            text for text in self.browser.complaints() if "SEVERE" in text or "Error" in text
        ]
        self.assertEqual(complaints, [])

    def open(self, *parts: str) -> None:
        """Opens a position."""
        self.browser.open(self.server.link(*parts))

    def cell(self, name: str, part: int = 1) -> str:
        """The selector of a cell."""
        return f"#parts .card:nth-of-type({part}) .cell[aria-label^='{name}:']"

    def hash(self) -> str:
        """What stands behind the sign # in the address."""
        return str(self.browser.script("return location.hash"))
