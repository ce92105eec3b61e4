"""Marks that a process sets up for others on its machine: they see when it or the mark is gone."""
from __future__ import annotations

import os
from functools import lru_cache
from pathlib import Path
from typing import BinaryIO, Optional

Place = tuple[str, str, str]
"""The machine, where the mark is, and what stands there as long as it is wanted."""


class Mark:
    """An open file without a name: others see it as long as this process has it open."""

    def __init__(self) -> None:
        self._file: Optional[BinaryIO] = None
        try:
            self._file = open(os.memfd_create("wanted"), "w+b")
            link = f"/proc/{os.getpid()}/fd/{self._file.fileno()}"
            self.place: Optional[Place] = (this_machine(), link, _identity(link) or "")
        except (AttributeError, OSError):
            self.place = None

    def remove(self) -> None:
        """Takes the mark away."""
        if self._file is not None:
            self._file.close()


def is_there(place: Place) -> bool:
    """Whether a mark of this machine is there."""
    return _identity(place[1]) == place[2]


def _identity(link: str) -> Optional[str]:
    """What a file is known by, whatever else gets its number later."""
    try:
        found = os.stat(link)
    except OSError:
        return None
    return f"{found.st_dev}:{found.st_ino}"


@lru_cache(maxsize=None)
def this_machine() -> str:
    """What tells this machine, since it was started, and the processes seen here from others."""
    try:
        boot = Path("/proc/sys/kernel/random/boot_id").read_text().strip()
        return f"{boot} {os.readlink('/proc/self/ns/pid')} {os.getuid()}"
    except OSError:
        return f"unknown {os.getpid()}"
