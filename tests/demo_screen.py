# SPDX-License-Identifier: Apache-2.0
"""What README says that the demo shows, and what it shows, without what changes from run to run."""

import pathlib
import re
import subprocess

TOP = pathlib.Path(__file__).resolve().parent.parent


def without_times(text):
    """A screen without its delays, and without the number of the desk's events, which has its ticks."""
    return re.sub(r"desk events \d+", "desk events N", re.sub(r"\d+\.\d{3} ms", "DELAY ms", text))


def readme_screen():
    """The session of README, from the start of the daemon to its report."""
    (block,) = re.findall(r"^```\n(\$ stampd run .*?)^```$", (TOP / "README.md").read_text(), re.S | re.M)
    return without_times(block)


def difference(found):
    """The first line in which what was shown isn't README's screen, or None."""
    lines, wanted = without_times(found).splitlines(), readme_screen().splitlines()
    for number in range(max(len(lines), len(wanted))):
        one, other = ((each[number : number + 1] or ["nothing"])[0] for each in (lines, wanted))
        if one != other:
            return f"line {number + 1} of what is shown is {one!r}, and README has {other!r}"
    return None


def run_of_demo(top, *words, **options):
    """What the demo of a copy writes to both its streams, and its status."""
    options = {"capture_output": True, "text": True} | options
    return subprocess.run([top / "demo", *words], stdin=subprocess.DEVNULL, **options)
