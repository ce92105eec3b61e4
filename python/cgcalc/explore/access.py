"""Who may ask the server, and where it listens."""
from __future__ import annotations

import hmac
import importlib
import secrets
import socket
from dataclasses import dataclass, field
from typing import Any, Optional, Sequence
from urllib.parse import quote, urlsplit

HOST = "127.0.0.1"
EVERYWHERE = ("0.0.0.0", "::")
THREADS = 12
MOST_BODY = 1 << 17
MOST_CONNECTIONS = 100
PATIENCE = 30
POLICY = (
    "default-src 'self'; img-src 'self' data: blob:; style-src 'self' 'unsafe-inline';"
    " object-src 'none'; base-uri 'none'; form-action 'self'; frame-ancestors {ancestors}"
)


@dataclass
class Access:
    """Who may ask: the names of this machine in addresses, the port, and the key."""

    hosts: tuple[str, ...]
    port: int
    key: str = field(default_factory=lambda: secrets.token_urlsafe(18))
    framed: bool = False

    def has_host(self, host: Optional[str]) -> bool:
        """Whether an address' host is this server."""
        return host in {f"{name}:{self.port}" for name in self.hosts}

    def has_origin(self, origin: Optional[str]) -> bool:
        """Whether a request comes from a page of this server, or from no page."""
        if origin is None:
            return True
        parts = urlsplit(origin)
        return parts.scheme == "http" and self.has_host(parts.netloc)

    def has_key(self, given: Optional[str]) -> bool:
        """Whether this is the key."""
        return given is not None and hmac.compare_digest(given.encode(), self.key.encode())

    @property
    def cookie(self) -> str:
        """The cookie's name: one for each server, since browsers share cookies between ports."""
        return f"cg-explore-{self.port}"

    @property
    def policy(self) -> str:
        """What the page may load, and who may show it in a frame."""
        local = "http://127.0.0.1:* http://localhost:*"
        return POLICY.format(ancestors=local if self.framed else "'none'")

    def address(self, host: str, parts: Sequence[str], framed: bool = False) -> str:
        """The address of the page, with the key and a position."""
        name = HOST if host in EVERYWHERE else in_brackets(host)
        frame = "&frame=1" if framed else ""
        place = "&".join(f"g={quote(part, safe='')}" for part in parts)
        behind = f"#{place}" if place else ""
        return f"http://{name}:{self.port}/?key={self.key}{frame}{behind}"


def in_brackets(host: str) -> str:
    """A host as it stands in an address.

    >>> in_brackets("::1"), in_brackets("127.0.0.1")
    ('[::1]', '127.0.0.1')
    """
    return f"[{host}]" if ":" in host else host


def names_of(host: str) -> tuple[str, ...]:
    """The names that a server's addresses may have."""
    own = (socket.gethostname(), socket.getfqdn()) if host in EVERYWHERE else ()
    return tuple(dict.fromkeys((in_brackets(host), HOST, "localhost", *own)))


def listening(host: str, port: int) -> socket.socket:
    """A socket that is bound to an address."""
    bound = socket.socket(socket.AF_INET6 if ":" in host else socket.AF_INET)
    try:
        bound.setsockopt(socket.SOL_SOCKET, socket.SO_REUSEADDR, 1)
        bound.bind((host, port))
    except BaseException:
        bound.close()
        raise
    return bound


def make_server(app: Any, bound: socket.socket) -> Any:
    """The server of an application, by waitress."""
    waitress = importlib.import_module("waitress.server")
    return waitress.create_server(
        app,
        sockets=[bound],
        threads=THREADS,
        ident=None,
        channel_timeout=PATIENCE,
        max_request_body_size=MOST_BODY,
        connection_limit=MOST_CONNECTIONS,
        clear_untrusted_proxy_headers=True,
    )
