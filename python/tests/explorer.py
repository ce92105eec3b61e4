"""The explorer's server and a browser, for tests."""
from __future__ import annotations

import http.client
import importlib
import json
import re
import signal
import subprocess
import time
from typing import Any, Optional, Sequence
from urllib.parse import quote

from tests.places import ROOT, command, environment

ADDRESS = re.compile(r"cg-explore: (http://127\.0\.0\.1:([0-9]+)/\?key=([\w-]+)\S*)")
PATIENCE = 40
REDRAWN = ("stale element", "element click intercepted", "element not interactable")


class Server:
    """A running cg-explore."""

    def __init__(self, *words: str, changes: Optional[dict[str, str]] = None) -> None:
        self.process = subprocess.Popen(
            [*command("cg-explore"), "--no-browser", "--port", "0", *words],
            stdout=subprocess.PIPE,
            stderr=subprocess.PIPE,
            env=environment(**(changes or {})),
            cwd=ROOT,
            text=True,
        )
        assert self.process.stdout is not None
        line = self.process.stdout.readline()
        found = ADDRESS.match(line)
        if not found:
            raise AssertionError(f"cg-explore didn't start: {line!r} {self.end()}")
        self.address, self.port, self.key = found[1], int(found[2]), found[3]

    def end(self, number: int = signal.SIGTERM) -> tuple[int, str]:
        """Ends it by a signal: its status, and what it told on standard error."""
        if self.process.poll() is None:
            self.process.send_signal(number)
        _, told = self.process.communicate(timeout=PATIENCE)
        return self.process.returncode, told

    def send(
        self, method: str, path: str, body: Any = None, **headers: str
    ) -> tuple[int, Any, dict[str, str]]:
        """A request: its status, its data where they are JSON, and its headers."""
        given = {"X-Key": self.key, "Content-Type": "application/json"}
        given.update({name.replace("_", "-"): text for name, text in headers.items()})
        given = {name: text for name, text in given.items() if text}
        data = body if isinstance(body, (bytes, type(None))) else json.dumps(body).encode()
        connection = http.client.HTTPConnection("127.0.0.1", self.port, timeout=PATIENCE)
        try:
            connection.request(method, path, data, given)
            response = connection.getresponse()
            read = response.read()
            kind = response.getheader("Content-Type") or ""
            told = json.loads(read) if read and kind == "application/json" else read.decode()
            return response.status, told, dict(response.getheaders())
        finally:
            connection.close()

    def ask(self, word: str, **data: Any) -> Any:
        """The answer to a question of the page."""
        status, told, _ = self.send("POST", f"/ask/{word}", {"id": f"t{time.monotonic()}", **data})
        assert status == 200, told
        return told

    def link(self, *parts: str) -> str:
        """The address that opens a position."""
        return self.address + "#" + "&".join(f"g={quote(part, safe='')}" for part in parts)


class Browser:
    """Debian's Chromium, without a window."""

    def __init__(self) -> None:
        chrome: Any = importlib.import_module("selenium.webdriver")
        service: Any = importlib.import_module("selenium.webdriver.chrome.service")
        options = chrome.ChromeOptions()
        options.binary_location = "/usr/bin/chromium"
        for word in ("--headless=new", "--no-sandbox", "--disable-dev-shm-usage", "--disable-gpu"):
            options.add_argument(word)
        options.set_capability("goog:loggingPrefs", {"browser": "ALL"})
        driver = service.Service("/usr/bin/chromedriver")
        self.driver: Any = chrome.Chrome(service=driver, options=options)
        self.size(1400, 1100)

    def size(self, width: int, height: int) -> None:
        """Makes the page so wide and high."""
        shape = {"width": width, "height": height, "deviceScaleFactor": 1, "mobile": False}
        self.driver.execute_cdp_cmd("Emulation.setDeviceMetricsOverride", shape)

    def saves_to(self, folder: str) -> None:
        """Lets what is saved go to a folder."""
        self.driver.execute_cdp_cmd(
            "Browser.setDownloadBehavior", {"behavior": "allow", "downloadPath": folder}
        )

    def scheme(self, name: str) -> None:
        """Asks for `light` or `dark`."""
        feature = {"name": "prefers-color-scheme", "value": name}
        self.driver.execute_cdp_cmd("Emulation.setEmulatedMedia", {"features": [feature]})

    def open(self, address: str) -> None:
        """Opens an address in a fresh page."""
        self.driver.get("about:blank")
        self.driver.get(address)

    def script(self, text: str, *given: Any) -> Any:
        """What a script gives."""
        return self.driver.execute_script(text, *given)

    def all(self, selector: str) -> list[Any]:
        """The elements of a selector."""
        found: list[Any] = self.driver.find_elements("css selector", selector)
        return found

    def value(self, selector: str) -> str:
        """What the field has that a selector finds."""
        return str(self.script("return document.querySelector(arguments[0])?.value", selector))

    def attributes(self, selector: str, name: str) -> list[str]:
        """An attribute of all that a selector finds, read at once: the page may draw them anew."""
        found: list[str] = self.script(
            "return [...document.querySelectorAll(arguments[0])]"
            ".map((one) => one.getAttribute(arguments[1]))",
            selector,
            name,
        )
        return found

    def one(self, selector: str) -> Any:
        """The element of a selector, as soon as there is one that is shown."""
        found: list[Any] = []

        def look() -> bool:
            found[:] = [element for element in self.all(selector) if element.is_displayed()]
            return bool(found)

        self.until(look, selector)
        return found[0]

    def click(self, selector: str) -> None:
        """Clicks on what a selector finds, again where it was drawn anew meanwhile."""

        def tried() -> bool:
            self.one(selector).click()
            return True

        self.until(tried, selector)

    def choose(self, holder: str, value: str) -> None:
        """Chooses one of several words that stand side by side."""
        self.click(f"{holder} label:has(> input[value='{value}'])")

    def text(self, selector: str) -> str:
        """The text of what a selector finds, also where it isn't shown."""
        found = self.script(
            "return document.querySelector(arguments[0])?.textContent ?? ''", selector
        )
        return str(found)

    def until(self, check: Any, what: object) -> None:
        """Waits until something is true; AssertionError where it isn't in time."""
        end = time.monotonic() + PATIENCE
        while True:
            try:
                if check():
                    return
            except Exception as error:  # an element that was drawn anew meanwhile
                if not any(word in str(error).lower() for word in REDRAWN):
                    raise
            if time.monotonic() > end:
                raise AssertionError(f"waited in vain for {what}; live: {self.text('#live')!r}")
            time.sleep(0.03)

    def value_is(self, name: str) -> None:
        """Waits until the page shows a value, and has all moves."""
        self.until(lambda: self.text("#live").startswith(f"Value {name}. "), f"the value {name}")
        self.idle()

    def idle(self) -> None:
        """Waits until no question is under way and the moves stand there."""
        self.until(
            lambda: self.script(
                "return document.querySelector('#running').hidden"
                " && !document.querySelector('#left-moves.old')"
            ),
            "the moves",
        )

    def keys(self, *texts: str, held: str = "") -> None:
        """Types, with a key held down if one is given."""
        actions: Any = importlib.import_module("selenium.webdriver.common.action_chains")
        chain = actions.ActionChains(self.driver)
        chain = (
            chain.key_down(held).send_keys(*texts).key_up(held) if held else chain.send_keys(*texts)
        )
        chain.perform()

    def drag(self, selector: str, *steps: tuple[int, int]) -> None:
        """Presses on what a selector finds, and drags it by some steps."""
        actions: Any = importlib.import_module("selenium.webdriver.common.action_chains")

        def tried() -> bool:
            chain = actions.ActionChains(self.driver).move_to_element(self.one(selector))
            chain = chain.click_and_hold()
            for step in steps:
                chain = chain.move_by_offset(*step)
            chain.release().perform()
            return True

        self.until(tried, selector)

    def complaints(self) -> list[str]:
        """What the browser's console has."""
        return [str(entry["message"]) for entry in self.driver.get_log("browser")]

    def close(self) -> None:
        """Ends the browser."""
        self.driver.quit()


def moves_of(browser: Browser, player: str) -> Sequence[str]:
    """The names of the moves that are shown for a player."""
    side = {"L": "left", "R": "right"}[player]
    return browser.attributes(f"#{side}-moves .move", "data-move")


def children_of(process: int) -> list[int]:
    """The processes that a process started."""
    done = subprocess.run(
        ["ps", "-o", "pid=", "--ppid", str(process)], capture_output=True, check=False
    )
    return [int(word) for word in done.stdout.split()]
