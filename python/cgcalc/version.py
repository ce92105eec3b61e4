"""The version of the package, and what is known of the program that it asks."""
from __future__ import annotations

import os
from functools import lru_cache
from pathlib import Path
from typing import Mapping, Optional

from cgcalc.program import BUILT, ProgramMissing, clone, find_program, folder

VERSION = folder().joinpath("VERSION").read_text(encoding="ascii").strip()
RECORD = "PROVED.txt"
"""The name of a record of a proof. It lies beside the program that was proved, in a package or in
the clone. Lines such as `sha256: ..` begin it, up to the first blank line."""


def checksum(program: str) -> str:
    """The SHA-256 of a program's bytes, in hexadecimal digits."""
    found = os.stat(program)
    return _checksum(program, found.st_mtime_ns, found.st_size, found.st_ino)


@lru_cache(maxsize=16)
def _checksum(program: str, *_: int) -> str:
    import hashlib  # here, since few need it and loading it takes time

    return hashlib.sha256(Path(program).read_bytes()).hexdigest()


def read_record(text: str) -> dict[str, str]:
    """What the first lines of a record say.

    >>> read_record("program: cg 2.0.0\\nsha256: 00ff\\n\\nThe gate's last lines: ..\\n")
    {'program': 'cg 2.0.0', 'sha256': '00ff'}
    """
    lines = text.partition("\n\n")[0].splitlines()
    pairs = (line.partition(": ") for line in lines)
    return {name: said.strip() for name, colon, said in pairs if colon}


def proof_of(program: str) -> Optional[Mapping[str, str]]:
    """The record of the proof of a program, found by its checksum; None where there is none."""
    for path in (folder() / RECORD, (clone() / BUILT).with_name(RECORD)):
        try:
            record = read_record(path.read_text(encoding="utf-8"))
            if record.get("sha256") == checksum(program):
                return record
        except (OSError, UnicodeDecodeError):
            continue
    return None


def version_text(command: str) -> str:
    """What `--version` of a command tells: its version, which program it asks, and its proof.

    >>> version_text("cg-table").splitlines()[0] == f"cg-table (cgcalc) {VERSION}"
    True
    """
    lines = [f"{command} (cgcalc) {VERSION}"]
    try:
        program = find_program()
        lines += [f"program: {program}", f"sha256: {checksum(program)}", proof_text(program)]
    except ProgramMissing as missing:
        lines += [f"program: none; {missing}"]
    except OSError as error:
        lines += [f"unknown program: it can't be read: {error.strerror}"]
    return "\n".join(lines)


def proof_text(program: str) -> str:
    """A line on the proof of a program."""
    record = proof_of(program)
    if record is None:
        return "unknown program: no record of a proof has its checksum"
    told = {name: record.get(name, "?") for name in ("program", "kit", "commit")}
    return "proved: {program} by {kit}, commit {commit}".format(**told)
