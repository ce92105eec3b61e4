"""Files that are never seen half written."""
from __future__ import annotations

import os
import stat
from pathlib import Path


def is_special(path: Path) -> bool:
    """Whether a path is there and is no file of its own: a device, a pipe, or what is open already.

    >>> is_special(Path("/dev/null")), is_special(Path("/nowhere"))
    (True, False)
    """
    try:
        found = os.stat(path)
    except OSError:
        return False
    return not stat.S_ISREG(found.st_mode) or any(_is_open_as(found, number) for number in (1, 2))


def _is_open_as(found: os.stat_result, number: int) -> bool:
    """Whether a file is this process's standard output or standard error, by its number."""
    try:
        return os.path.samestat(found, os.fstat(number))
    except OSError:
        return False


def write_whole(path: Path, content: bytes) -> None:
    """Writes a file beside its place and moves it there, so that it is never seen half written.

    Where a link stands there the file that it names is replaced, not the link. What is no regular
    file, as a device, a pipe or standard output, is written to and stays what it is.
    """
    if is_special(path):
        with open(path, "ab") as file:
            file.write(content)
        return
    place = path.resolve()
    beside = place.with_name(f"{place.name}.{os.getpid()}.new")
    try:
        beside.write_bytes(content)
        if place.exists():
            beside.chmod(stat.S_IMODE(place.stat().st_mode))
        sync(beside)
        os.replace(beside, place)
        sync(place.parent)
    except BaseException:
        beside.unlink(missing_ok=True)
        raise


def sync(path: Path) -> None:
    """Waits until a file, or the names in a folder, are on the disk."""
    handle = os.open(path, os.O_RDONLY)
    try:
        os.fsync(handle)
    finally:
        os.close(handle)
