"""What processors and memory the machine has for this process. It is a library, and is not run."""

import contextlib
import os
import re
from pathlib import Path


def number_in(file, pattern):
    try:
        return int(re.search(pattern, Path(file).read_text(), re.M)[1])
    except (OSError, TypeError):
        return None


def control_groups(kind):
    """Yields the folders of the control groups of this process for memory or cpu, in both versions, its own first."""
    with contextlib.suppress(OSError):
        for row in Path("/proc/self/cgroup").read_text().splitlines():
            _, kinds, path = row.split(":", 2)
            if not kinds or kind in kinds.split(","):
                root = Path("/sys/fs/cgroup", kind if kinds else "")
                group = root / path.lstrip("/")
                yield from (it for it in (group, *group.parents) if it == root or root in it.parents)


def free_memory():
    """Returns the bytes that may still be taken, by the machine and by each control group."""
    free = [1024 * (number_in("/proc/meminfo", r"^MemAvailable:\s+(\d+)") or 0)]
    for group in control_groups("memory"):
        limit = number_in(group / "memory.max", r"^(\d+)") or number_in(group / "memory.limit_in_bytes", r"^(\d+)")
        held = number_in(group / "memory.stat", r"^(?:anon|total_rss) (\d+)")
        if limit and held is not None:
            free.append(max(limit - held, 0))
    return min(free)


def processors():
    """Returns how many processors may be used; a control group may give a share of their time."""
    found = len(os.sched_getaffinity(0))
    for group in control_groups("cpu"):
        quota = number_in(group / "cpu.max", r"^(\d+)") or number_in(group / "cpu.cfs_quota_us", r"^(\d+)")
        period = number_in(group / "cpu.max", r" (\d+)") or number_in(group / "cpu.cfs_period_us", r"^(\d+)")
        if quota and period:
            found = min(found, max(quota // period, 1))
    return found
