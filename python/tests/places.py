"""Where the tests find things, and programs that stand in for the real one."""
from __future__ import annotations

import os
import shlex
import subprocess
import sys
import time
from pathlib import Path
from typing import Callable, Mapping, Optional, Sequence

from cgcalc import find_program

ROOT = Path(__file__).resolve().parents[2]
EXAMPLES = [ROOT / "examples" / name for name in ("first.txt", "names.txt", "strips.txt")]


def program(folder: Path, script: str) -> str:
    """A program in a folder, made of a shell script in which `$REAL` is the real one."""
    path = folder / "program"
    path.write_text(f"#!/bin/sh\nREAL={shlex.quote(find_program())}\n{script}\n")
    path.chmod(0o755)
    return str(path)


def distinct(line: str, count: int) -> list[str]:
    """So many lines that ask the same and differ by the blanks at their ends."""
    digits = str.maketrans("01", " \t")
    return [line + f"{number:b}".translate(digits) for number in range(count)]


def environment(**changes: str) -> dict[str, str]:
    """The environment in which a command is tried."""
    return {**os.environ, "CG": find_program(), "PYTHONDONTWRITEBYTECODE": "1", **changes}


def command(name: str) -> list[str]:
    """The words that run a command of tools/ with this Python."""
    return [sys.executable, str(ROOT / "tools" / name)]


def run(
    name: str,
    words: Sequence[str],
    typed: str = "",
    changes: Optional[Mapping[str, str]] = None,
    folder: Path = ROOT,
) -> tuple[int, str, str]:
    """Runs a command of tools/: its status, what it wrote, and what it told on standard error."""
    done = subprocess.run(
        [*command(name), *words],
        input=typed.encode(),
        capture_output=True,
        cwd=folder,
        env=environment(**(changes or {})),
        timeout=300,
        check=False,
    )
    return done.returncode, done.stdout.decode(), done.stderr.decode()


def waits(check: Callable[[], bool]) -> bool:
    """Whether something comes true within half a minute."""
    end = time.monotonic() + 30
    while not check() and time.monotonic() < end:
        time.sleep(0.02)
    return check()


def ended(process: int) -> bool:
    """Whether a process has ended."""
    try:
        return Path(f"/proc/{process}/stat").read_text().split()[2] == "Z"
    except OSError:
        return True
