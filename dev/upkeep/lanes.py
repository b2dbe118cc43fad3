"""How many checks the kit's gate runs side by side."""
import os
import re
from pathlib import Path

# What a check of a crate takes at most, in bytes: a fifth more than the most that was seen (4.1 GB).
CHECK = 5_000_000_000


def processors() -> int:
    return len(os.sched_getaffinity(0))


def lanes() -> int:
    """As many as there are processors, where memory holds them."""
    free = re.search(r"MemAvailable:\s+(\d+)", Path("/proc/meminfo").read_text())
    return max(1, min(processors(), 1024 * int(free[1]) // CHECK))


def environment() -> dict[str, str]:
    """The environment of the gate. By its own plan the kit counts on more memory than checks take, and leaves
    processors idle; a number that the user set stands."""
    return {"RT_JOBS": str(lanes()), **os.environ}
