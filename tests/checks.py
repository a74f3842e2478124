# SPDX-License-Identifier: Apache-2.0
"""Checks that are run one after the other on a program, each in a folder of its own."""

import argparse
import os
import pathlib
import shutil
import subprocess
import tempfile
import traceback

TOP = pathlib.Path(__file__).resolve().parent.parent
PATIENCE = 80  # seconds


class Skipped(Exception):
    """The tool that a check wants isn't here."""


class Checks:
    """A check is a function of a program and a folder. What is wrong is an AssertionError, or a fault of the system."""

    def __init__(self):
        self.runs = []

    def __call__(self, run):
        self.runs.append(run)
        return run

    def passes(self, run, program):
        """Whether a check passes; none where its tool isn't here. What is wrong is told."""
        with tempfile.TemporaryDirectory() as folder:
            try:
                run(program, folder)
                return True
            except Skipped as cause:
                print(f"{run.__name__}: skipped, since {cause}")
                return None
            except (AssertionError, OSError, subprocess.SubprocessError) as fault:
                print(f"{run.__name__}: {type(fault).__name__}: {told_of(fault)}")
                return False

    def main(self, description):
        """Runs all on the program of the command line, or on the proved one. It gives an exit status."""
        parser = argparse.ArgumentParser(description=description)
        parser.add_argument("--program")
        parser.add_argument("--must", action="store_true", help="a check that is skipped is a fault")
        options = parser.parse_args()
        program = options.program or subprocess.check_output([TOP / "build"], text=True).strip()
        found = [self.passes(run, os.path.abspath(program)) for run in self.runs]
        if options.must:
            found = [bool(each) for each in found]
        skipped = f", {found.count(None)} skipped" * (None in found)
        print(f"{found.count(True)} passed, {found.count(False)} failed{skipped}")
        return 1 if False in found else 0


def told_of(fault):
    """What a fault says. Of one that says nothing, where it came."""
    place = traceback.extract_tb(fault.__traceback__)[-1]
    return str(fault) or f"{place.filename}, line {place.lineno}: {place.line}"


def output(*words, **options):
    """What a command writes to both its streams, and its status."""
    options = {"stdout": subprocess.PIPE, "stderr": subprocess.STDOUT, "timeout": PATIENCE} | options
    ended = subprocess.run(list(map(str, words)), text=True, **options)
    return ended.stdout, ended.returncode


def wanted_tool(name):
    if shutil.which(name) is None:
        raise Skipped(f"there is no {name} here")
    return name
