# SPDX-License-Identifier: Apache-2.0
"""Runs all cases on a program and counts which pass."""

import os
import pathlib
import subprocess
import sys

import operator_talk
import scripted
from hex_text import octets

SECONDS = 120


def checked_cases(folder):
    """A case a configuration file, whose first line tells what a check of it says."""
    for file in sorted(folder.glob("*.toml")):
        told = file.read_text().split("\n")[0].removeprefix("# ")
        accepted = told.startswith("ok ")
        line = told if accepted else f"stampd: configuration: {told}"
        yield file.stem, ["check", str(file)], b"", f"{line}\n".encode(), 0 if accepted else 3


def file_cases(folder):
    """A case a folder: input, output, status, and words where they are not just replay."""
    for case in sorted(each for each in folder.iterdir() if each.is_dir()):
        words = case / "words"
        yield (
            case.name,
            words.read_text().split() if words.exists() else ["replay"],
            octets((case / "input").read_text()),
            octets((case / "output").read_text()),
            int((case / "status").read_text()),
        )


def operator_cases(folder):
    """A case a file of an operator's lines in octets, of which a model tells the answers."""
    for file in sorted(folder.glob("*.lines")):
        yield file.stem, [octets(line) for line in file.read_text().splitlines()]


def difference(found, wanted):
    """Where two outputs part, with some octets of both."""
    at = len(os.path.commonprefix([found, wanted]))
    shown = lambda octets: octets[at : at + 16].hex() or "nothing"
    return f"{shown(found)} in place of {shown(wanted)} at octet {at} of the output"


def run_file_case(program, words, given, wanted, status):
    ended = subprocess.run([program, *words], input=given, capture_output=True, timeout=SECONDS)
    if ended.stdout != wanted:
        return difference(ended.stdout, wanted)
    if ended.returncode != status:
        return f"status {ended.returncode} in place of {status}"
    if ended.stderr:
        return f"octets on the standard error: {ended.stderr[:60]!r}"
    return None


def guarded(run, *args):
    """What is wrong, where a run also must not fail by itself."""
    try:
        return run(*args)
    except (OSError, subprocess.SubprocessError, AssertionError, TimeoutError) as fault:
        return f"{type(fault).__name__}: {fault}"


def main():
    program = os.path.abspath(sys.argv[1])
    here = pathlib.Path(__file__).parent
    passed = failed = 0
    results = [
        (name, guarded(run_file_case, program, *case))
        for folder in (here / "cases", here / "found")
        if folder.exists()
        for name, *case in [*file_cases(folder), *checked_cases(folder)]
    ]
    results += [
        (name, guarded(operator_talk.difference, program, pieces))
        for folder in (here / "cases", here / "found")
        for name, pieces in operator_cases(folder)
    ]
    results += [(name, guarded(run, program)) for name, run in scripted.cases()]
    for name, wrong in results:
        if wrong is None:
            passed += 1
        else:
            failed += 1
            print(f"{name}: {wrong}")
    print(f"{passed} passed, {failed} failed")
    return 1 if failed else 0


if __name__ == "__main__":
    sys.exit(main())
