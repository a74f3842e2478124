# SPDX-License-Identifier: Apache-2.0
"""What an installation, a package and an archive share: the program, and what is known of it."""

import hashlib
import os
import pathlib
import shutil
import subprocess
from typing import NamedTuple

from layout import TOP, version

SECONDS = 60
BEFORE = TOP / "stampd"  # where an archive has the program


class NotDone(Exception):
    """Why nothing was done."""


class Program(NamedTuple):
    path: pathlib.Path
    is_built: bool  # by the toolchain, which proves before it builds


def said(*words):
    """What a command writes, without the last line end; nothing where it fails or isn't here."""
    try:
        return subprocess.run(words, cwd=TOP, capture_output=True, text=True, check=True).stdout.rstrip("\n")
    except (OSError, subprocess.CalledProcessError):
        return ""


def program_of(named):
    """The program that is named, once it is one. Where none is, that of the archive, or the proved one, which is built."""
    path = named or (BEFORE if BEFORE.exists() else None)
    if path is None:
        built = subprocess.run([TOP / "build"], stdout=subprocess.PIPE, text=True)
        if built.returncode:
            raise NotDone("the program doesn't build")
        return Program(pathlib.Path(built.stdout.strip()), True)
    try:
        told = subprocess.run([os.path.abspath(path)], stdin=subprocess.DEVNULL, capture_output=True, timeout=SECONDS).stdout
    except OSError as fault:
        raise NotDone(f"{path} isn't run: {fault.strerror}") from None
    except subprocess.TimeoutExpired:
        raise NotDone(f"{path} isn't run: it doesn't end") from None
    if told != b"stampd: usage\n":
        raise NotDone(f"{path} is no stampd")
    return Program(pathlib.Path(path), False)


def architecture():
    """The machine's name, as Debian has it where it can be asked."""
    return said("dpkg", "--print-architecture") or os.uname().machine


def moment():
    """Seconds since 1970 that files of a package have: those of the last commit, so that each making gives the same."""
    return int(os.environ.get("SOURCE_DATE_EPOCH") or said("git", "log", "-1", "--format=%ct") or 0)


def sources():
    commit = said("git", "rev-parse", "HEAD")
    if not commit:
        return "not known"
    return f"commit {commit}" + (", with changes that aren't in it" if said("git", "status", "--porcelain") else "")


def stripped(program, folder):
    """The program without symbols, as packages have it."""
    made = pathlib.Path(folder, "stampd")
    shutil.copyfile(program.path, made)
    subprocess.run(["strip", "--strip-unneeded", made], check=True)
    made.chmod(0o755)
    return made


def page(program, packed):
    """What was proved of a program, and how to see that a file is this one. `packed` is the file as it is handed on."""
    whole, part = (hashlib.sha256(path.read_bytes()).hexdigest() for path in (program.path, packed))
    rows = [("file", f"stampd, {packed.stat().st_size:,} octets"), ("SHA-256", part), ("version", version())]
    if part != whole:
        rows.append(("made of", f"the file with SHA-256 {whole}, by `strip`, which takes its symbols"))
    if program.is_built:
        rows += [("sources", sources()), ("toolchain", said("rt", "version") or "not known")]
        told = PROVED
    else:
        told = NOT_KNOWN
    table = "\n".join(f"    {name:<11}{value}" for name, value in rows)
    return f"# What was proved of this program\n\n{table}\n\n{told}"


PROVED = """\
The toolchain made this file of these sources, and it makes none before it has proved each function of each crate that the
program stands on: to be safe, to return if the calls of the operating system in it do, and to meet its contract. README.md
says under "What is proved" what the contracts say, what is only tested, what neither, and what is trusted.
`sha256sum` of the installed file tells whether it is this one.
"""
NOT_KNOWN = """\
The program was handed over as a file. How it was made isn't known here, and so nothing is said to be proved of it. What is
proved where the toolchain makes the program is in README.md, under "What is proved".
`sha256sum` of the installed file tells whether it is this one.
"""
