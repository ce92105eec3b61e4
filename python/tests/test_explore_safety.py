"""Who may ask the explorer's server, and what broken requests do."""
from __future__ import annotations

import json
import random
import re
import socket
import subprocess
import unittest
from pathlib import Path
from typing import Any, ClassVar

from tests.explorer import Server, children_of
from tests.places import waits

BROKEN = 1_000
CLICKS = 1_000


def memory_of(process: int) -> int:
    """The KiB that a process has in memory."""
    text = Path(f"/proc/{process}/status").read_text()
    found = re.search(r"VmRSS:\s+([0-9]+)", text)
    return int(found[1]) if found else 0


class Safety(unittest.TestCase):
    """Who may ask, and what broken requests do."""

    server: ClassVar[Server]

    @classmethod
    def setUpClass(cls) -> None:
        cls.server = Server("--timeout", "10")
        cls.addClassCleanup(cls.server.end)

    def status(self, method: str, path: str, body: Any = None, **headers: str) -> int:
        """The status of a request."""
        return self.server.send(method, path, body, **headers)[0]

    def test_it_listens_on_this_machine_alone(self) -> None:
        done = subprocess.run(["ss", "-ltnH"], capture_output=True, check=False, text=True)
        lines = [line for line in done.stdout.splitlines() if f":{self.server.port} " in line]
        self.assertTrue(all(f"127.0.0.1:{self.server.port}" in line for line in lines), lines)

    def test_hosts_and_origins(self) -> None:
        port, body = self.server.port, {"id": "a", "parts": ["1"]}
        for host in ("evil.example", f"evil.example:{port}", "127.0.0.1:1", "", "[::1]"):
            self.assertIn(self.status("POST", "/ask/position", body, Host=host or "x"), (400, 421))
        self.assertEqual(self.status("POST", "/ask/position", body, Host=f"localhost:{port}"), 200)
        for origin in (
            "http://evil.example",
            "null",
            f"https://127.0.0.1:{port}",
            "http://127.0.0.1",
        ):
            self.assertEqual(self.status("POST", "/ask/position", body, Origin=origin), 403)
        here = f"http://127.0.0.1:{port}"
        self.assertEqual(self.status("POST", "/ask/position", body, Origin=here), 200)

    def test_the_key(self) -> None:
        body = {"id": "a", "parts": ["1"]}
        for key in ("", "x", self.server.key[:-1], self.server.key + "a"):
            self.assertEqual(self.status("POST", "/ask/position", body, X_Key=key), 403)
        self.assertEqual(self.status("GET", "/", X_Key=""), 403)
        status, _, headers = self.server.send("GET", f"/?key={self.server.key}", X_Key="")
        cookie = headers["Set-Cookie"]
        self.assertEqual(status, 200)
        self.assertIn("SameSite=Strict", cookie)
        self.assertIn("HttpOnly", cookie)
        sent = cookie.split(";")[0]
        self.assertEqual(self.status("POST", "/ask/position", body, X_Key="", Cookie=sent), 200)
        self.assertEqual(self.status("GET", "/", X_Key="", Cookie=sent), 200)

    def test_no_path_of_the_machine(self) -> None:
        for path in (
            "/../server.py",
            "/..%2fserver.py",
            "/%2e%2e/asking.py",
            "//etc/passwd",
            "/page/app.js",
            "/etc/passwd",
            "/..%5c..%5cx",
            "/app.js%00",
            "/.",
            "/server.py",
        ):
            self.assertIn(self.status("GET", path), (400, 404, 308), path)
        self.assertEqual(self.status("GET", "/app.js"), 200)

    def test_bodies(self) -> None:
        long = json.dumps({"id": "a", "parts": ["1" * 70_000]}).encode()
        self.assertEqual(self.status("POST", "/ask/position", long), 413)
        deep = b'{"id": "a", "parts": ' + b"[" * 20_000 + b"]" * 20_000 + b"}"
        self.assertEqual(self.status("POST", "/ask/position", deep), 400)
        for body in (
            b"",
            b"{",
            b"[]",
            b"1",
            b'"x"',
            b"null",
            b"\xff\xfe",
            b'{"id": 1}',
            b'{"parts": []}',
        ):
            self.assertEqual(self.status("POST", "/ask/position", body), 400, body)
        for parts in (
            "1",
            [1],
            [None],
            [""],
            ["1\nvalue 2"],
            ["1"] * 25,
            {"a": 1},
            ["# x"],
            ["1 ; 2"],
        ):
            self.assertEqual(
                self.status("POST", "/ask/position", {"id": "a", "parts": parts}), 400, parts
            )
        for effort in (-1, 3, 10**30, "1", None, [], True, 1.5):
            tried = {"id": "a", "parts": ["1"], "effort": effort}
            self.assertEqual(self.status("POST", "/ask/position", tried), 400, effort)
        plain = {"id": "a", "parts": ["1"]}
        self.assertEqual(
            self.status("POST", "/ask/position", plain, Content_Type="text/plain"), 400
        )

    def test_a_thousand_broken_requests_leave_it_running(self) -> None:
        dice = random.Random("broken requests")
        seen: dict[int, int] = {}
        for _ in range(BROKEN):
            status = self.broken(dice)
            seen[status] = seen.get(status, 0) + 1
        self.assertNotIn(500, seen)
        self.assertGreater(
            sum(count for status, count in seen.items() if 400 <= status < 500), BROKEN // 2
        )
        told = self.server.ask("position", parts=["{2|-1}"])
        self.assertEqual(told["value"]["name"], "{2|-1}")
        self.assertTrue(waits(lambda: not children_of(self.server.process.pid)))

    def broken(self, dice: random.Random) -> int:
        """Sends something broken: the status, or 0 where the connection was closed."""
        way = dice.randrange(7)
        path = dice.choice(
            ["/ask/position", "/ask/moves", "/ask/lines", "/ask/stop", "/", "/x", "/ask/"]
        )
        if way == 0:
            method = dice.choice(["PUT", "DELETE", "PATCH", "OPTIONS", "TRACE", "HEAD", "GET"])
            return self.status(method, path if path != "/" else "/ask/position")
        if way == 1:
            text = bytearray(json.dumps({"id": "a", "parts": ["{2|-1}"], "lines": []}).encode())
            for _ in range(dice.randint(1, 6)):
                text[dice.randrange(len(text))] = dice.randrange(256)
            return self.status("POST", path, bytes(text))
        if way == 2:
            odd: Any = dice.choice(
                [None, 10**400, -1, 1e308, {}, [[]], "\ud800", "x" * 30_000, True]
            )
            body = {dice.choice(["id", "parts", "lines", "effort", "names"]): odd, "id": "a"}
            return self.status("POST", path, json.dumps(body).encode())
        if way == 3:
            return self.status(
                "POST", path, {"id": "a"}, Host=dice.choice(["evil", "a:1", "127.0.0.1"])
            )
        if way == 4:
            return self.status(
                "POST",
                path,
                {"id": "a"},
                X_Key=dice.choice(["", "a", "é".encode().decode("latin-1")]),
            )
        return self.raw(dice, way)

    def raw(self, dice: random.Random, way: int) -> int:
        """Sends bytes that are no request, or a part of one, and closes the connection."""
        head = f"POST /ask/moves HTTP/1.1\r\nHost: 127.0.0.1:{self.server.port}\r\n"
        head += f"X-Key: {self.server.key}\r\n"
        head += "Content-Type: application/json\r\nContent-Length: 400\r\n\r\n"
        whole = head.encode() + b'{"id": "half", "parts": ["^"]'
        sent = (
            whole[: dice.randrange(1, len(whole))]
            if way == 5
            else dice.randbytes(dice.randint(1, 200)) + b"\r\n\r\n"
        )
        with socket.create_connection(("127.0.0.1", self.server.port), timeout=10) as connection:
            connection.sendall(sent)
            if way == 5:
                return 0
            got = connection.recv(100)
        found = re.match(rb"HTTP/1\.[01] ([0-9]{3})", got)
        return int(found[1]) if found else 0

    def test_a_thousand_clicks_leave_memory_where_it_was(self) -> None:
        boards = [f'Domineering("{cells}")' for cells in self.boards()]
        before = 0
        for at in range(CLICKS):
            self.server.ask("position", parts=[boards[at % len(boards)]])
            if at == CLICKS // 5:
                before = memory_of(self.server.process.pid)
        self.assertLess(memory_of(self.server.process.pid), before + 8_192)

    def boards(self) -> list[str]:
        """Some boards."""
        dice = random.Random("clicks")
        rows = ["".join(dice.choice("..#") for _ in range(3)) for _ in range(60)]
        return ["|".join(dice.choice(rows) for _ in range(2)) for _ in range(150)]


if __name__ == "__main__":
    unittest.main()
