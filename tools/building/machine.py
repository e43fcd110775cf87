"""What of the machine may be used: processors and memory, also where a control group grants less than there is."""

import os
import re

# A group's limit of memory, and where stands what it holds that cannot be given back, in the two versions of groups.
GROUPS = [
    ("/sys/fs/cgroup/memory.max", "/sys/fs/cgroup/memory.stat", r"^anon (\d+)"),
    (
        "/sys/fs/cgroup/memory/memory.limit_in_bytes",
        "/sys/fs/cgroup/memory/memory.stat",
        r"^total_rss (\d+)",
    ),
]


def number_in(path, pattern):
    """Returns the number that a file has where the pattern says, or None."""
    try:
        with open(path, encoding="utf-8") as file:
            found = re.search(pattern, file.read(), re.M)
    except OSError:
        return None
    return int(found[1]) if found else None


def processors():
    """Returns how many processors this process may run on, or fewer by the quota of its group."""
    count = len(os.sched_getaffinity(0))
    quota = number_in("/sys/fs/cgroup/cpu.max", r"^(\d+) \d+")
    period = number_in("/sys/fs/cgroup/cpu.max", r"^\d+ (\d+)")
    if quota and period:
        count = min(count, max(1, quota // period))
    return count


def free_memory():
    """Returns how many bytes are free, for this process's group too."""
    free = [1024 * (number_in("/proc/meminfo", r"MemAvailable:\s+(\d+)") or 0)]
    for limit_file, held_file, pattern in GROUPS:
        limit, held = number_in(limit_file, r"^(\d+)"), number_in(held_file, pattern)
        if limit and held is not None:
            free.append(limit - held)
    return min(free)
