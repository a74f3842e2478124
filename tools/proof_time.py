# SPDX-License-Identifier: Apache-2.0
"""How long proofs take, by bench/costs.txt: processor seconds a crate for its proof, its tests, its seed and its edits."""

import os
import pathlib
import re

TOP = pathlib.Path(__file__).resolve().parent.parent
FILE = TOP / "bench" / "costs.txt"
PARTS = ("proof", "tests", "seed", "edits")
BUILD_WORKERS = 2  # processors that `rt run` takes, which proves one crate after the other


def crates(top=TOP):
    """Each crate of crates.txt, in order, with what it uses of the repository."""
    lines = (line.split("#")[0].strip() for line in (top / "crates.txt").read_text().splitlines())
    named = {head.split()[0]: uses.split() for head, uses in (line.split(":") for line in lines if line)}
    return {crate: [use for use in uses if use in named] for crate, uses in named.items()}


def stands_on(crate, named):
    """The crate and all that it stands on, in the order of crates.txt."""
    found, waiting = set(), [crate]
    while waiting:
        each = waiting.pop()
        if each not in found:
            found.add(each)
            waiting += named[each]
    return [each for each in named if each in found]


def costs(file=FILE):
    """Seconds by crate and part. There are none where no file is."""
    found = {}
    if file.exists():
        for line in file.read_text().splitlines():
            if row := re.fullmatch(r"(\w+)((?:\s+[\d.]+){4}).*", line):
                found[row[1]] = dict(zip(PARTS, map(float, row[2].split())))
    found.pop("sum", None)
    return found


def processors():
    return len(os.sched_getaffinity(0))


def span(seconds):
    """A time in words."""
    minutes = round(seconds / 60)
    if minutes < 1:
        return "less than a minute"
    if minutes < 90:
        return f"{minutes} minute{'s' if minutes > 1 else ''}"
    return f"{round(seconds / 3600, 1):g} hours"


def build_time():
    """How long ./build takes where nothing is kept, in words."""
    told = costs()
    seconds = sum(told[crate]["proof"] for crate in stands_on("stampd", crates()) if crate in told)
    if not seconds:
        return "half an hour and more"
    return f"some {span(seconds / min(BUILD_WORKERS, processors()))}"
