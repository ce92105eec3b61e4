"""The built program: where it is found, what is known of it, and how a run of it can fail."""
from __future__ import annotations

import contextlib
import os
import shutil
from pathlib import Path
from typing import Optional

BUILT = Path("crates", "cg", "out", "cg")

MEANINGS = {
    2: "the words of the command line aren't accepted",
    3: "reading the input failed",
    4: "writing the output failed",
    5: "memory was wanting",
    6: "the session is too long: it has more than 1,048,576 bytes, or more than 4,096 lines that"
    " get an answer, or more of them than cells",
    7: "the words of the command line couldn't be got, as where one isn't UTF-8",
}
OUT_OF_TIME = 124
"""The status of a run that was stopped since it took too long."""


class CgError(Exception):
    """Why the program gave no answers at all. A refused line is no error, but a reply."""


class ProgramMissing(CgError):
    """The program wasn't found."""


class ProgramFailed(CgError):
    """A run ended with a status that comes with no answers.

    `told` is the last line that the program wrote to standard error.

    >>> failed = ProgramFailed(5)
    >>> failed.status, str(failed)
    (5, 'cg ended with status 5: memory was wanting')
    >>> str(ProgramFailed(-9)), str(ProgramFailed(5, "no pages"))
    ('cg was ended by signal 9', 'cg ended with status 5: memory was wanting (no pages)')
    """

    def __init__(self, status: int, told: str = "") -> None:
        super().__init__(status, told)
        self.status = status
        self.told = told
        self.meaning = MEANINGS.get(status, "a status that cg doesn't have")

    def __str__(self) -> str:
        if self.status == OUT_OF_TIME:
            return "cg was stopped, since it took too long"
        told = f" ({self.told})" if self.told else ""
        if self.status < 0:
            return f"cg was ended by signal {-self.status}{told}"
        return f"cg ended with status {self.status}: {self.meaning}{told}"


def find_program() -> str:
    """The absolute path of the program.

    It is the one that `CG` in the environment names, else the one inside this package, else the
    one that the clone built in which the package lies, else `cg` on the path. Nothing is looked
    for in other folders.
    """
    named = os.environ.get("CG")
    if named:
        return _named(named)
    own = [folder() / "cg", clone() / BUILT]
    found = next((str(path) for path in own if _can_run(path)), None) or shutil.which("cg")
    if found is None:
        inside, built = own
        raise ProgramMissing(
            "the program cg isn't found: put it on the path, or name it by CG in the environment"
            f" (there is no {inside}, no {built}, and no cg on the path)"
        )
    return os.path.abspath(found)


def folder() -> Path:
    """The folder of this package."""
    return Path(__file__).resolve().parent


def clone() -> Path:
    """The top of the clone, where this package lies in one."""
    return folder().parent.parent


def _can_run(path: Path) -> bool:
    return path.is_file() and os.access(path, os.X_OK)


_MET: dict[str, str] = {}


def _named(name: str) -> str:
    """The program that a value of `CG` names: a command on the path, or a path.

    A relative path counts from the folder where the process met it first, so that it stays the
    same when the process goes to another folder.
    """
    path: Optional[str] = shutil.which(name)
    if os.sep in name:
        path = _MET.setdefault(name, os.path.abspath(name))
    if path is None or not _can_run(Path(path)):
        raise ProgramMissing(f"CG in the environment names {path or name}, which is no program")
    return os.path.abspath(path)


with contextlib.suppress(ProgramMissing, OSError):
    if os.environ.get("CG"):
        _named(os.environ["CG"])
