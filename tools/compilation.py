# SPDX-License-Identifier: Apache-2.0
"""What a compilation without proofs wants of the machine."""

import contextlib
import pathlib
import re
import shutil
import tempfile

MEMORY = 1_500  # MiB
DISK = 200  # MiB, among the temporary files


def free_memory():
    """MiB that can be had without swapping, as the system and its limit for this group of processes tell."""
    told = dict(re.findall(r"^(\w+): +(\d+) kB", pathlib.Path("/proc/meminfo").read_text(), re.M))
    free = int(told["MemAvailable"]) >> 10
    with contextlib.suppress(OSError, ValueError):
        limit, used = (int(pathlib.Path("/sys/fs/cgroup", name).read_text()) for name in ("memory.max", "memory.current"))
        free = min(free, limit - used >> 20)
    return free


def free_disk():
    return shutil.disk_usage(tempfile.gettempdir()).free >> 20


def lack():
    """What isn't here, with what to do; none where a compilation can begin."""
    if shutil.which("rt") is None:
        return "the toolchain isn't here: no command is called rt. The README says which toolchain is meant"
    if (free := free_memory()) < MEMORY:
        return f"too little memory: {free} MiB are free, and the compilation takes {MEMORY}: end other programs first"
    if (free := free_disk()) < DISK:
        folder = tempfile.gettempdir()
        return f"too little disk: {free} MiB are free in {folder}, the compilation takes {DISK}: free some, or set TMPDIR"
    return None
