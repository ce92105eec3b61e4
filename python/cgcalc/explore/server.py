"""The server of the page: it listens on this machine, and answers only who has the key."""
from __future__ import annotations

import json
from importlib import resources
from typing import Any, Callable, Optional

from flask import Flask, Response, request
from werkzeug.exceptions import HTTPException

from cgcalc.explore.access import Access
from cgcalc.explore.asking import MOST_EFFORT, Asking, Busy, Desk, Stopped
from cgcalc.explore.moves import listed, moves_told, reasons_told
from cgcalc.explore.positions import BadRequest, position_told, read_position
from cgcalc.explore.told import Told, advice_on
from cgcalc.explore.worksheet import answered, completions, read_lines
from cgcalc.program import CgError

MOST_BYTES = 64 << 10
DEEPEST = 8
TYPES = {
    "html": "text/html; charset=utf-8",
    "css": "text/css; charset=utf-8",
    "js": "text/javascript; charset=utf-8",
    "svg": "image/svg+xml",
}
NO_KEY = (
    "cg-explore: this page needs its key. Open the address that cg-explore printed when it started."
)


def page_files() -> dict[str, bytes]:
    """The files of the page, by their names."""
    folder = resources.files("cgcalc.explore") / "page"
    found = [item for item in folder.iterdir() if item.name.rpartition(".")[2] in TYPES]
    return {item.name: item.read_bytes() for item in found}


class Site:
    """The page and its questions."""

    def __init__(self, desk: Desk, access: Access) -> None:
        self.desk, self.access = desk, access
        self.files = page_files()
        self.position: list[str] = []
        self.app = Flask("cgcalc.explore", static_folder=None, template_folder=None)
        self.app.config["MAX_CONTENT_LENGTH"] = MOST_BYTES
        add = self.app.add_url_rule
        add("/", "page", self.page, methods=["GET"])
        add("/<name>", "file", self.file, methods=["GET"])
        asked: dict[str, Callable[[Told, Asking], Told]] = {
            "position": lambda data, asking: position_told(read_position(data["parts"]), asking),
            "moves": lambda data, asking: moves_told(read_position(data["parts"]), asking),
            "reasons": lambda data, asking: reasons_told(read_position(data["parts"]), asking),
            "lines": lambda data, asking: {"answers": answered(read_lines(data["lines"]), asking)},
        }
        for name, answer in asked.items():
            add(f"/ask/{name}", name, self.asker(answer), methods=["POST"])
        add("/ask/list", "list", self.list, methods=["POST"])
        add("/ask/complete", "complete", self.complete, methods=["POST"])
        add("/ask/stop", "stop", self.stop, methods=["POST"])
        add("/ask/keep", "keep", self.keep, methods=["POST"])
        self.app.before_request(self.guard)
        self.app.after_request(self.finish)
        self.app.register_error_handler(Exception, self.fault)

    def guard(self) -> Optional[Response]:
        """Refuses who asks another host, comes from another page, or has no key."""
        if not self.access.has_host(request.host):
            return told_status("this server has another name", 421)
        if not self.access.has_origin(request.headers.get("Origin")):
            return told_status("this comes from another page", 403)
        if (request.content_length or 0) > MOST_BYTES:
            return told_status(f"a request has at most {MOST_BYTES:,} bytes", 413)
        if request.path.startswith("/ask/"):
            keys = (request.headers.get("X-Key"), request.cookies.get(self.access.cookie))
            if not any(self.access.has_key(key) for key in keys):
                return told_status(NO_KEY, 403)
        return None

    def finish(self, response: Response) -> Response:
        """Adds what keeps the page to itself."""
        response.headers["Content-Security-Policy"] = self.access.policy
        response.headers["X-Content-Type-Options"] = "nosniff"
        response.headers["Referrer-Policy"] = "no-referrer"
        response.headers["Cache-Control"] = "no-store"
        return response

    def page(self) -> Response:
        """The page, for who has the key in the address or as a cookie."""
        given = request.args.get("key")
        if not any(map(self.access.has_key, (given, request.cookies.get(self.access.cookie)))):
            return Response(self.files["key.html"], 403, content_type=TYPES["html"])
        response = Response(self.files["index.html"], content_type=TYPES["html"])
        if self.access.has_key(given):
            response.set_cookie(
                self.access.cookie, self.access.key, httponly=True, samesite="Strict"
            )
        return response

    def file(self, name: str) -> Response:
        """A file of the page, of those that were read at the start."""
        if name not in self.files:
            return told_status("there is no such file", 404)
        return Response(self.files[name], content_type=TYPES[name.rpartition(".")[2]])

    def asker(self, answer: Callable[[Told, Asking], Told]) -> Callable[[], Response]:
        """What answers a question of the page."""

        def asked() -> Response:
            data = read_body()
            name, effort = data.get("id"), data.get("effort", 0)
            if not isinstance(name, str) or not 0 < len(name) <= 40:
                raise BadRequest("a question has an id, a text of at most 40 letters")
            if effort not in range(MOST_EFFORT + 1) or isinstance(effort, bool):
                raise BadRequest(f"effort is a number from 0 to {MOST_EFFORT}")
            asking = self.desk.begin(name, effort)
            try:
                return as_json(answer(data, asking))
            except Stopped as stopped:
                advice = advice_on("failed", asking.limits)
                told = {"stopped": str(stopped), "advice": advice, "more": effort < MOST_EFFORT}
                return as_json(told)
            finally:
                self.desk.end(name)

        return asked

    def list(self) -> Response:
        """The moves on boards, without what the program says of them."""
        return as_json(listed(read_position(read_body().get("parts"))))

    def complete(self) -> Response:
        """The words that the line of a worksheet may end with."""
        return as_json({"lines": completions(read_body())[:40]})

    def stop(self) -> Response:
        """Stops a question."""
        name = read_body().get("id")
        return as_json({"stopped": isinstance(name, str) and self.desk.stop(name)})

    def keep(self) -> Response:
        """Keeps the position that is shown, for who opened the page in a notebook."""
        self.position = list(read_position(read_body().get("parts")))
        return as_json({"kept": len(self.position)})

    def fault(self, error: Exception) -> Response:
        """What is told where something went wrong."""
        if isinstance(error, HTTPException):
            return told_status(error.description or error.name, error.code or 500)
        if isinstance(error, (BadRequest, KeyError)):
            return told_status(f"this isn't understood: {error}", 400)
        if isinstance(error, Busy):
            return told_status(str(error), 503)
        if isinstance(error, CgError):
            return told_status(str(error), 500)
        self.app.logger.exception("a fault of cg-explore")
        return told_status("a fault of cg-explore", 500)


def read_body() -> Told:
    """The data of a request: an object of JSON that isn't deep; BadRequest where it is none."""
    if request.mimetype != "application/json":
        raise BadRequest("the body is JSON")
    try:
        data = json.loads(request.get_data(cache=False))
    except (ValueError, RecursionError) as error:
        raise BadRequest("the body is no JSON") from error
    if not isinstance(data, dict) or depth_of(data) > DEEPEST:
        raise BadRequest("the body is an object, and not deep")
    return data


def depth_of(data: Any) -> int:
    """How deep data is, counted up to a bound."""
    level, depth = [data], 0
    while level and depth <= DEEPEST:
        depth += 1
        inside = [
            list(one.values()) if isinstance(one, dict) else one
            for one in level
            if isinstance(one, (dict, list))
        ]
        level = [one for some in inside for one in some]
    return depth


def as_json(data: Told) -> Response:
    """An answer."""
    return Response(json.dumps(data), content_type="application/json")


def told_status(sentence: str, status: int) -> Response:
    """A status with a sentence."""
    text = json.dumps({"error": sentence})
    return Response(text, status, content_type="application/json")
