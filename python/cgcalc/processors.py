"""How many processors there are for this process."""
from __future__ import annotations

import os
from pathlib import Path
from typing import Iterator, Optional

GROUPS = Path("/sys/fs/cgroup")
OWN_GROUP = Path("/proc/self/cgroup")


def processors() -> int:
    """The processors that this process may use, by its affinity and by its container's limit."""
    try:
        allowed = len(os.sched_getaffinity(0))
    except (AttributeError, OSError):
        allowed = os.cpu_count() or 1
    limits = [limit for folder in _groups() for limit in [_limit_of(folder)] if limit is not None]
    return max(min([allowed, *limits]), 1)


def _groups() -> Iterator[Path]:
    """The folders of the groups that this process is in, with those around them."""
    yield GROUPS
    yield GROUPS / "cpu"
    try:
        lines = OWN_GROUP.read_text().splitlines()
    except OSError:
        return
    for line in lines:
        _, kinds, path = line.split(":", 2)
        top = GROUPS if not kinds else GROUPS / "cpu" if "cpu" in kinds.split(",") else None
        if top is not None:
            own = top / path.strip("/")
            yield from (folder for folder in (own, *own.parents) if top in folder.parents)


def _limit_of(group: Path) -> Optional[int]:
    """The processors that a group may use, rounded up, or None where it has no limit."""
    try:
        if (group / "cpu.max").exists():
            quota, period = (group / "cpu.max").read_text().split()
        else:
            quota = (group / "cpu.cfs_quota_us").read_text().strip()
            period = (group / "cpu.cfs_period_us").read_text().strip()
        return -(-int(quota) // int(period)) if int(quota) > 0 else None
    except (OSError, ValueError, ZeroDivisionError):
        return None
