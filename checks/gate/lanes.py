"""How many proofs run beside each other."""
import os
from pathlib import Path

# What one proof takes at most, in bytes, where it has one processor.
PROOF = 5_000_000_000


def words_of(file):
    """The words of a file of the system's, none where it isn't there."""
    try:
        return Path(file).read_text().split()
    except OSError:
        return []


def lanes():
    """One proof a processor, as far as memory goes, or as many as `RT_JOBS` says."""
    if os.environ.get("RT_JOBS", "").isdigit():
        return max(int(os.environ["RT_JOBS"]), 1)
    found = len(os.sched_getaffinity(0))
    quota = words_of("/sys/fs/cgroup/cpu.max")
    if len(quota) == 2 and quota[0].isdigit():
        found = min(found, int(quota[0]) // int(quota[1]))
    memory = words_of("/proc/meminfo")
    if "MemAvailable:" in memory:
        free = 1024 * int(memory[memory.index("MemAvailable:") + 1])
        found = min(found, free // PROOF)
    return max(found, 1)
