"""How much memory is free, so that no input takes all of it."""

import contextlib
import re
import sys

# What Linux says of the machine, in KiB.
MACHINE = "/proc/meminfo"
# And of the container that this runs in, in bytes: its bound, which may be "max", what it uses, and
# where stands how much of that it may give back, as what it keeps of files.
CONTAINERS = (
    ("/sys/fs/cgroup/memory.max", "/sys/fs/cgroup/memory.current", "/sys/fs/cgroup/memory.stat"),
    (
        "/sys/fs/cgroup/memory/memory.limit_in_bytes",
        "/sys/fs/cgroup/memory/memory.usage_in_bytes",
        "/sys/fs/cgroup/memory/memory.stat",
    ),
)
# (only the first version has the total of all below by a word of its own)
GIVEN_BACK = r"(?ms)\A(?:.*^total_|.*^)inactive_file (\d+)"


def free_memory():
    """The bytes that may still be taken, or a number beyond all where nothing tells."""
    available = _number_in(MACHINE, r"MemAvailable:\s*(\d+) kB")
    free = sys.maxsize if available is None else available * 1024
    return min(free, *(_left_in(*it) for it in CONTAINERS))


def _left_in(bound, used, kinds):
    """What a container has left."""
    most, taken = _number_in(bound, r"(\d+)"), _number_in(used, r"(\d+)") or 0
    if most is None:
        return sys.maxsize
    return max(most - max(taken - (_number_in(kinds, GIVEN_BACK) or 0), 0), 0)


def _number_in(place, pattern):
    with contextlib.suppress(OSError), open(place, encoding="ascii", errors="replace") as file:
        if found := re.search(pattern, file.read()):
            return int(found[1])
    return None
