"""Where a table goes while it is made: to standard output, or to a file."""
from __future__ import annotations

from pathlib import Path
from typing import Optional, Union

from cgcalc.files import write_whole
from cgcalc.forms import JSON_LINES, LINES, json_line
from cgcalc.part_file import PartFile
from cgcalc.replies import Reply
from cgcalc.table import Table
from cgcalc.tool import write_output


class PrintedTable:
    """A table that goes to standard output: line by line where its form allows, else at the end."""

    def __init__(self, table: Table, form: str) -> None:
        self.table = table
        self.form = form
        self.by_lines = form in LINES or form == JSON_LINES

    def begin(self) -> None:
        """Begins the output."""
        if self.form in LINES:
            write_output(LINES[self.form][0](self.table.header))

    def add(self, reply: Reply) -> None:
        """Takes one more reply, and writes what it allows to write."""
        table = self.table
        table.replies.append(reply)
        done = len(table.replies)
        if self.form == JSON_LINES:
            write_output(json_line(table.record(done - 1)))
        elif self.by_lines and done % len(table.headings) == 0:
            write_output(LINES[self.form][1](table.row(done // len(table.headings) - 1)))

    def end(self) -> None:
        """Writes what is left to write."""
        if not self.by_lines:
            write_output(self.table.text(self.form))

    def mend(self, number: int, reply: Reply) -> None:
        """Takes a reply to a question that was asked again."""
        self.table.replies[number] = reply

    def stop(self) -> None:
        """Writes the table as far as it came."""
        whole, more = divmod(len(self.table.replies), len(self.table.headings))
        if self.form in LINES and more:
            write_output(LINES[self.form][1](self.table.row(whole)))
        self.end()

    def way_on(self) -> str:
        """Says how a later run goes on."""
        return "with --output a later run could go on from there"


class FiledTable:
    """A table that goes to a file; until it is whole its replies are kept beside it.

    What is no regular file is written to when the table is whole, and nothing is kept beside it.
    """

    def __init__(
        self, table: Table, form: str, file: Path, part: Optional[PartFile], resumes: bool
    ) -> None:
        self.table = table
        self.form = form
        self.file = file
        self.part = part
        if part is not None:
            table.replies = part.take_up(table.entries) if resumes else part.begin()

    def begin(self) -> None:
        """Begins the output, which has begun."""

    def add(self, reply: Reply) -> None:
        """Keeps one more reply."""
        if self.part is not None:
            self.part.add(self.table.entries[len(self.table.replies)], reply)
        self.table.replies.append(reply)

    def mend(self, number: int, reply: Reply) -> None:
        """Keeps a reply to a question that was asked again."""
        if self.part is not None:
            self.part.mend(number, reply)
        self.table.replies[number] = reply

    def end(self) -> None:
        """Writes the file, and drops what was kept but where questions failed."""
        write_whole(self.file, self.table.text(self.form).encode(errors="surrogateescape"))
        if self.part is not None and not self.table.failed:
            self.part.remove()

    def stop(self) -> None:
        """Keeps what there is."""
        if self.part is not None and not self.table.replies:
            self.part.remove()

    def way_on(self) -> str:
        """Says how a later run goes on."""
        if self.part is None:
            return "with --output and a file's name a later run could go on from there"
        return f"--resume {self.file} goes on from there"


Sink = Union[PrintedTable, FiledTable]
