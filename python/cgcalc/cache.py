"""Replies that stay: a file of them, which further sessions and processes read and add to."""
from __future__ import annotations

import os
import threading
import warnings
from pathlib import Path
from typing import TYPE_CHECKING, Iterable, Sequence, Union

from cgcalc.errors import WrongCall
from cgcalc.program import CgError
from cgcalc.version import checksum

if TYPE_CHECKING:
    import sqlite3  # loading it takes time, and few need it

MOST_BYTES = 256 << 20
"""How large the file becomes where nothing is said; then the oldest quarter is dropped."""
AT_ONCE = 500
"""How many replies are looked up at once."""
TABLE = "CREATE TABLE IF NOT EXISTS replies_1 (key BLOB UNIQUE NOT NULL, text TEXT NOT NULL)"
_LEFT: list[object] = []
"""Connections of the process that this one was forked from, which only that one may close."""


class Cache:
    """A file of replies, in which a session looks before it asks.

    A reply is found again only for the same program, by its checksum, the same line with the
    definitions that it needs, the same positions limit and the same share. Any number of processes
    may use the file at once. Replies of runs that failed aren't kept.

    >>> import tempfile
    >>> from cgcalc import Session
    >>> with tempfile.TemporaryDirectory() as folder:
    ...     cache = Cache(folder + "/replies.sqlite")
    ...     print(Session(cache=cache).mean("{2|-1}"), Session(cache=cache).mean("{2|-1}"))
    1/2 1/2
    """

    def __init__(self, path: Union[str, "os.PathLike[str]"], most_bytes: int = MOST_BYTES) -> None:
        self.path = Path(path)
        self.most_bytes = most_bytes
        self._own = threading.local()
        try:
            self.path.parent.mkdir(parents=True, exist_ok=True)
            self._connection()
        except OSError as error:
            raise WrongCall(f"the cache {self.path} can't be made: {error.strerror}") from error
        except _error() as error:
            raise WrongCall(f"{self.path} can't be used as a cache: {error}") from error

    def __reduce__(self) -> tuple[object, ...]:
        return Cache, (self.path, self.most_bytes)

    def find(self, keys: Sequence[bytes]) -> dict[bytes, str]:
        """The replies that are there, by their keys."""
        found: dict[bytes, str] = {}
        try:
            for start in range(0, len(keys), AT_ONCE):
                some = keys[start : start + AT_ONCE]
                marks = ",".join("?" * len(some))
                asked = f"SELECT key, text FROM replies_1 WHERE key IN ({marks})"
                found.update(self._connection().execute(asked, some))
        except _error() as error:
            self._warn(error)
        return found

    def keep(self, replies: Iterable[tuple[bytes, str]]) -> None:
        """Adds replies."""
        try:
            connection = self._connection()
            with connection:
                connection.executemany("INSERT OR IGNORE INTO replies_1 VALUES (?, ?)", replies)
            self._shorten(connection)
        except _error() as error:
            self._warn(error)

    def _shorten(self, connection: sqlite3.Connection) -> None:
        """Drops the oldest replies where there are too many; the file takes no more room then."""
        (pages,), (free,), (size,) = (
            connection.execute(f"PRAGMA {name}").fetchone()
            for name in ("page_count", "freelist_count", "page_size")
        )
        if (pages - free) * size > self.most_bytes:
            with connection:
                oldest = "SELECT min(rowid) + (max(rowid) - min(rowid)) / 4 FROM replies_1"
                connection.execute(f"DELETE FROM replies_1 WHERE rowid <= ({oldest})")

    def _connection(self) -> sqlite3.Connection:
        """The connection of this thread of this process."""
        import sqlite3

        if getattr(self._own, "process", None) != os.getpid():
            if hasattr(self._own, "connection"):
                _LEFT.append(self._own.connection)
            connection = sqlite3.connect(self.path, timeout=10)
            connection.execute("PRAGMA journal_mode=WAL")
            connection.execute("PRAGMA synchronous=NORMAL")
            with connection:
                connection.execute(TABLE)
            self._own.connection, self._own.process = connection, os.getpid()
        found: sqlite3.Connection = self._own.connection
        return found

    def _warn(self, error: Exception) -> None:
        """Says that it goes on without the file."""
        warnings.warn(f"the cache {self.path} isn't used: {error}", RuntimeWarning, stacklevel=2)


def _error() -> type[Exception]:
    """What is raised where the file can't be used."""
    import sqlite3

    return sqlite3.Error


def default_place() -> Path:
    """Where the file is where nothing is said: with what else a user's programs keep for speed."""
    folder = os.environ.get("XDG_CACHE_HOME")
    try:
        return (Path(folder) if folder else Path.home() / ".cache") / "cgcalc" / "replies.sqlite"
    except RuntimeError as error:
        raise WrongCall("there is no home folder for a cache: name its file") from error


def cache_of(given: object) -> Union[Cache, None]:
    """The cache that a session is given: one, the path of one, or True for the user's own."""
    if given is None or given is False:
        return None
    if isinstance(given, Cache):
        return given
    if given is True:
        return Cache(default_place())
    if isinstance(given, (str, os.PathLike)):
        return Cache(given)
    raise WrongCall(f"cache is True, or the path of a file, not {given!r}")


class Keys:
    """The keys of lines under some limits."""

    def __init__(self, program: str, share: int, positions: int) -> None:
        from hashlib import blake2b  # here, as loading it takes time

        self._start = blake2b(digest_size=16)
        try:
            known = checksum(program)
        except OSError as error:
            raise CgError(f"{program} can't be read: {error.strerror}") from error
        self._start.update(f"{known} {share} {positions}\n".encode())

    def of(self, session: bytes) -> bytes:
        """The key of a line with the lines before it."""
        key = self._start.copy()
        key.update(session)
        return key.digest()
