"""The file beside a table's file that keeps the replies until the table is whole."""
from __future__ import annotations

import fcntl
import io
import os
from pathlib import Path
from typing import Optional

from cgcalc.questions import Entry
from cgcalc.replies import Reply, read_reply
from cgcalc.tool import BadUse

AGAIN = "# "
"""What a line begins with that has another reply to an earlier question, by its number."""


class PartFile:
    """FILE.part beside FILE, which one command at a time has open.

    Its first line tells on what the replies depend beside the question. Each further line has a
    question, a tab and the reply; or `#`, the number of an entry that was asked again, a tab and
    the reply. A last line that is broken off doesn't count.
    """

    def __init__(self, table: Path, limits: str) -> None:
        self.path = table.with_name(table.name + ".part")
        self._table = table
        self._header = f"cg-table {limits}"
        self._file: Optional[io.FileIO] = None

    def begin(self) -> list[Reply]:
        """Makes the file, in which there may be no replies yet."""
        self._file = self._opened(os.O_CREAT)
        if self._file.read().count(b"\n") > 1:
            way = f"go on with --resume {self._table}, or remove it"
            raise BadUse(f"{self.path} is left of a run that was stopped: {way}")
        return self._begun()

    def take_up(self, entries: list[Entry]) -> list[Reply]:
        """The replies that an earlier run kept, which must be those to the first entries."""
        if not self.path.exists():
            if self._table.exists():
                raise BadUse(f"{self._table} is there, and no {self.path} to go on from")
            return self.begin()
        self._file = self._opened(0)
        text = self._file.read().decode(errors="surrogateescape")
        header, *lines = text.split("\n")[:-1] or [""]
        if not header and self._header.startswith(text):
            return self._begun()
        if header != self._header:
            raise BadUse(f"{self.path} was kept with other limits or definitions: {header!r}")
        if sum(not line.startswith(AGAIN) for line in lines) > len(entries):
            raise BadUse(f"{self.path} is of another table: it has more replies than this one")
        replies: list[Reply] = []
        for line in lines:
            self._take(line, entries, replies)
        self._cut(sum(len(_line(line)) for line in [header, *lines]))
        return replies

    def _take(self, line: str, entries: list[Entry], replies: list[Reply]) -> None:
        """Takes what a line says into the replies."""
        question, _, text = line.rpartition("\t")
        number = len(replies)
        if line.startswith(AGAIN):
            digits = question[len(AGAIN) :]
            number = int(digits) if digits.isdecimal() else number
            if number >= len(replies):
                raise BadUse(f"{self.path} is spoilt: {line!r}")
        elif question != entries[number].question:
            raise BadUse(f"{self.path} is of another table: it has the question {question!r}")
        try:
            replies[number:] = [read_reply(entries[number].question, text), *replies[number + 1 :]]
        except ValueError as error:
            raise BadUse(f"{self.path} is spoilt: {error}") from error

    def add(self, entry: Entry, reply: Reply) -> None:
        """Keeps one more reply."""
        self._write(_line(f"{entry.question}\t{reply}"))

    def mend(self, number: int, reply: Reply) -> None:
        """Keeps another reply to an entry that was asked again."""
        self._write(_line(f"{AGAIN}{number}\t{reply}"))

    def remove(self) -> None:
        """Removes the file."""
        self.path.unlink()
        self.close()

    def close(self) -> None:
        """Leaves the file to others."""
        if self._file is not None:
            self._file.close()

    def _begun(self) -> list[Reply]:
        self._cut(0)
        self._write(_line(self._header))
        return []

    def _cut(self, length: int) -> None:
        """Drops what stands in the file from a place on; what comes next is written there."""
        assert self._file is not None
        self._file.seek(self._file.truncate(length))

    def _write(self, line: bytes) -> None:
        """Writes a line, of which a disk that is nearly full may take a part only."""
        assert self._file is not None
        while line:
            line = line[self._file.write(line) or 0 :]

    def _opened(self, flags: int) -> io.FileIO:
        """The file, when it is this command's alone."""
        try:
            while True:
                file = io.FileIO(os.open(self.path, os.O_RDWR | flags, 0o666), "r+")
                fcntl.flock(file, fcntl.LOCK_EX | fcntl.LOCK_NB)
                own = os.fstat(file.fileno())
                if self.path.exists() and os.path.samestat(self.path.stat(), own):
                    return file
        except BlockingIOError:
            raise BadUse(f"another cg-table writes {self.path} now") from None
        except OSError as error:
            raise BadUse(f"{self.path} can't be written: {error.strerror}") from error


def _line(text: str) -> bytes:
    return text.encode(errors="surrogateescape") + b"\n"
