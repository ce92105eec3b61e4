"""Coq: the theory compiled once and kept, and files checked against it."""
from __future__ import annotations

import hashlib
import os
import re
import shutil
import subprocess
import tempfile
from dataclasses import dataclass
from pathlib import Path
from typing import Optional

from cgcalc.errors import WrongCall

PROJECT = "_CoqProject"
CLOSED = "Closed under the global context"
CHECKED = "Lemma checked : "
FAULT = re.compile(r'Some\s*\(\s*"([^"]*)"(?:%string)?\s*,\s*([0-9]+)', re.DOTALL)
TABLES = {
    "value": "value_rows",
    "canonical form": "value_rows",
    "negative": "negative_rows",
    "literal": "literal_rows",
    "sum": "sum_rows",
    "brace": "brace_rows",
    "Domineering": "domineering_rows",
    "Clobber": "clobber_rows",
    "Toads": "toads_rows",
    "Strip": "strip_rows",
    "question": "questions",
}
FAULTS = {"canonical form": "is no canonical form", "question": "doesn't follow"}


class CoqMissing(WrongCall):
    """There is no coqc, or none that is new enough."""


class NotAccepted(WrongCall):
    """Coq doesn't accept a file; the message names the first bad row."""


def find_formal(package: Path) -> Path:
    """The folder of the theory: in the package if it is installed, else at the top of the clone."""
    inside = package / "formal"
    return inside if inside.is_dir() else package.parents[1] / "formal"


FORMAL = find_formal(Path(__file__).resolve().parent)


@dataclass(frozen=True)
class Coq:
    """The compiler of Coq, and the folder with the compiled theory."""

    compiler: str
    theory: Path

    def run(self, file: Path) -> subprocess.CompletedProcess[str]:
        """Runs the compiler on a file, whose own folder gets what it writes."""
        words = [self.compiler, "-q", "-Q", str(self.theory), "CG", file.name]
        return subprocess.run(words, cwd=file.parent, capture_output=True, text=True, check=False)


def find_coq() -> str:
    """The compiler of Coq."""
    found = shutil.which("coqc")
    if found is None:
        raise CoqMissing("coqc isn't found: install Coq 8.16 or later (Debian's package coq)")
    return found


def files_of(formal: Path) -> list[str]:
    """The files of the theory, each behind those that it needs.

    >>> files_of(FORMAL)[:2]
    ['Games.v', 'Boards.v']
    """
    words = (formal / PROJECT).read_text(encoding="utf-8").split()
    return [word for word in words if word.endswith(".v")]


def compiled(formal: Path = FORMAL, cache: Optional[Path] = None) -> Coq:
    """The theory compiled, which is done once for these files and this Coq."""
    compiler = find_coq()
    version = subprocess.run(
        [compiler, "--version"], capture_output=True, text=True, check=False
    ).stdout
    mark = hashlib.sha256(version.encode())
    for name in files_of(formal):
        mark.update((formal / name).read_bytes())
    folder = (cache or cache_folder()) / mark.hexdigest()[:32]
    if not folder.is_dir():
        compile_theory(compiler, formal, folder)
    return Coq(compiler, folder)


def cache_folder() -> Path:
    """Where compiled theories are kept."""
    base = os.environ.get("XDG_CACHE_HOME") or os.path.join(os.path.expanduser("~"), ".cache")
    return Path(base) / "cg-certify"


def compile_theory(compiler: str, formal: Path, folder: Path) -> None:
    """Compiles the theory in a folder beside the one that it gets when all is done."""
    folder.parent.mkdir(parents=True, exist_ok=True)
    with tempfile.TemporaryDirectory(dir=folder.parent) as place:
        here = Path(place) / "theory"
        here.mkdir()
        for name in files_of(formal):
            shutil.copyfile(formal / name, here / name)
        for name in files_of(formal):
            run = Coq(compiler, here).run(here / name)
            if run.returncode:
                told = first_lines(run.stderr)
                raise NotAccepted(f"{name} of the theory isn't accepted: {told}")
        try:
            here.rename(folder)
        except OSError:
            if not folder.is_dir():
                raise


def first_lines(text: str, most: int = 12) -> str:
    """The first lines of a message."""
    return "\n".join(text.strip().splitlines()[:most])


def check_text(text: str, coq: Coq) -> str:
    """What Coq prints of a file that it accepts; else NotAccepted is raised."""
    with tempfile.TemporaryDirectory(prefix="cg-certify-") as place:
        file = Path(place) / "certificate.v"
        file.write_text(text, encoding="utf-8")
        run = coq.run(file)
        if run.returncode == 0:
            return run.stdout
        raise NotAccepted(fault_of(text, coq, run.stderr, Path(place) / "diagnosis.v"))


def fault_of(text: str, coq: Coq, told: str, file: Path) -> str:
    """Why a file isn't accepted: its first bad row if there is one, else what Coq told."""
    before, found, after = text.partition(CHECKED)
    command = after.split(" = ")[0] if found else ""
    if command.startswith("first_fault"):
        file.write_text(f"{before}Eval vm_compute in {command}.\n", encoding="utf-8")
        fault = FAULT.search(coq.run(file).stdout)
        if fault:
            return row_told(text, fault[1], int(fault[2]))
    return f"Coq doesn't accept the file: {first_lines(told)}"


def row_told(text: str, table: str, row: int) -> str:
    """The first bad row of a table, as it stands in the file."""
    name = TABLES.get(table, table)
    head = f"{name} : list inquiry :=" if table == "question" else f"{name} :="
    _, found, behind = text.partition(head)
    lines = behind.split("[", 1)[-1].splitlines() if found else []
    shown = lines[row - 1].strip().rstrip(";") if 0 < row <= len(lines) else ""
    return f"row {row} of {name} {FAULTS.get(table, 'is wrong')}: {shown}"
