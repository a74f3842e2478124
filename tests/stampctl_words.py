# SPDX-License-Identifier: Apache-2.0
"""stampctl as one file, its completion and its page."""

import os
import re
import subprocess
import sys

from stampctl import faults
from stampctl_calls import *

COMPLETION = TOP / "packaging" / "completion"


@check
def the_archive_is_the_program(program, folder):
    archive = readable_archive(folder)
    assert output(archive, "--version") == output(STAMPCTL, "--version")
    assert output(archive, "frob") == output(STAMPCTL, "frob")
    assert output(archive, "frob")[1] == 2
    with serving(program, folder) as (daemon, server, _):
        assert output(archive, "-s", server, "list") == (listing(), 0)
        assert output(archive, "-s", server, "quit", "--wait") == ("", 0)
    names = subprocess.check_output([sys.executable, "-m", "zipfile", "-l", archive], text=True)
    assert "__pycache__" not in names and names.count(".py") == len(list((TOP / "control").rglob("*.py"))), names


@check
def an_old_python_is_told(program, folder):
    script = "import runpy, sys; sys.version_info = (3, 10); runpy.run_path(sys.argv[1], run_name='__main__')"
    told = output(sys.executable, "-c", script, TOP / "control")
    assert told == ("stampctl: Python 3.11 or later is wanted, and this is 3.10\n", 7), told


def commands():
    """The commands that `help` lists."""
    return re.findall(r"^    (\w+) ", output(STAMPCTL, "help", env=os.environ | {"COLUMNS": "120"})[0], re.M)


def options_of(command):
    return set(re.findall(r"--[a-z-]+", output(STAMPCTL, "help", command)[0])) - {"--help"}


def completed(line):
    """What bash offers for the last word of a line."""
    script = 'source "$0"; COMP_LINE=$1 COMP_POINT=${#1}; _stampctl; printf "%s\\n" "${COMPREPLY[@]}"'
    told, status = output("bash", "-c", script, COMPLETION / "stampctl.bash", line)
    assert status == 0, told
    return told.split()


@check
def bash_completes_commands_options_and_modes(program, folder):
    wanted_tool("bash")
    assert len(commands()) == 14, commands()
    for line, wanted in (
        ("stampctl ", commands()), ("stampctl qu", ["quit"]), ("stampctl -s localhost:8620 wa", ["wait", "watch"]),
        ("stampctl -s ", []), ("stampctl count 0 192.0.2.1:5000 ", ["plain", "auth", "twamp"]),
        ("stampctl -s [::1]:8620 open 0 [::1]:5000 a", ["auth"]), ("stampctl help ex", ["explain", "export"]),
        ("stampctl config edge --format ", ["ntp", "ptp"]), ("stampctl config edge --offset ", []),
        (f"stampctl explain {TOP}/NEW", [f"{TOP}/NEWS.md"]), (f"stampctl apply --dry-run {TOP}/NEW", [f"{TOP}/NEWS.md"]),
    ):
        assert sorted(completed(line)) == sorted(wanted), (line, completed(line))
    for command in commands():
        told = completed(f"stampctl {command} --")
        assert set(told) == options_of(command), (command, told)


@check
def zsh_completes_the_same_words(program, folder):
    text = (COMPLETION / "_stampctl").read_text()
    assert re.findall(r"^    '(\w+):", text, re.M) == commands(), commands()
    for command in commands():
        (told,) = re.findall(rf"^            (?:\w+\|)?{command}(?:\|\w+)?\)(.*?);;", text, re.M | re.S) or [""]
        assert set(re.findall(r"'(--[a-z-]+)", told)) == options_of(command), (command, told)
    wanted_tool("zsh")
    assert output("zsh", "-n", COMPLETION / "_stampctl") == ("", 0)


@check
def the_page_has_every_command_option_and_status(program, folder):
    page = (TOP / "man" / "stampctl.1").read_text()
    missing = [name for name in commands() if not re.search(rf"^\.(It )?Cm {name}\b", page, re.M)]
    helped = "".join(output(STAMPCTL, *words)[0] for words in (["help"], *(["help", name] for name in commands())))
    options = set(re.findall(r"--([a-z-]+)", helped)) - {"help"}
    missing += [option for option in options if f"Fl -{option}" not in page]
    kinds = [each for each in vars(faults).values() if isinstance(each, type) and "status" in vars(each)]
    statuses = {kind.status for kind in kinds if isinstance(kind.status, int)} | {0, 2}
    assert len(statuses) == 10, statuses
    missing += [status for status in statuses if f".It {status}\n" not in page]
    assert not missing, f"not in the page: {missing}"
