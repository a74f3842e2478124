# SPDX-License-Identifier: Apache-2.0
"""Daemons on the loopback interface, and stampctl for the checks of it."""

import contextlib
import pathlib
import socket
import subprocess

from checks import TOP, Checks, Skipped, output, wanted_tool
from daemon import *

STAMPCTL = TOP / "stampctl"
SIX = "[0000:0000:0000:0000:0000:0000:0000:0001]"
check = Checks()


def controls(server, *words, **options):
    """What stampctl writes, and its status."""
    return output(STAMPCTL, "-s", server, *words, **options)


@contextlib.contextmanager
def running(*words, **options):
    """A program that is killed where it hasn't ended by itself."""
    with subprocess.Popen(list(map(str, words)), **options) as process:
        try:
            yield process
        finally:
            process.kill()


def at(port):
    return f"{HOST}:{port}"


def wanted_ipv6():
    with contextlib.suppress(OSError), socket.socket(socket.AF_INET6) as made:
        made.bind(("::1", 0))
        return
    raise Skipped("there is no IPv6 here")


def table_of(heads, *rows):
    """Rows as stampctl prints them."""
    cells = [heads.split(), *rows]
    widths = [max(map(len, column)) for column in zip(*cells)]
    return "".join("  ".join(map(str.ljust, row, widths)).rstrip() + "\n" for row in cells)


def listing(*rows):
    return table_of("LOCAL PEER MODE SSID DRAWS", *rows)


def session(peer, ssid=0, **more):
    """A session of a file."""
    return "[[sessions]]\n" + toml(peer=peer, config="edge", ssid=ssid, **more)


@contextlib.contextmanager
def serving(program, folder, sessions="", locals_count=1, **keys):
    """A daemon with the configuration `edge` and these sessions; it gives the daemon, its server and its file."""
    *ports, operator = free_ports(locals_count + 1)
    keys = dict(locals=[at(port) for port in ports], operator=at(operator)) | keys
    file = written(folder, toml(**keys) + "[configs.edge]\n" + sessions)
    with Daemon(program, file, operator) as daemon:
        daemon.port = ports[0]
        yield daemon, at(operator), file


def readable_archive(folder):
    """stampctl in one file that another user can run."""
    pathlib.Path(folder).chmod(0o755)
    archive = pathlib.Path(folder, "stampctl")
    told = output(TOP / "packaging" / "stampctl_archive.py", archive)
    assert told == ("", 0), told
    return archive


def wanted_setpriv(*words):
    """The words before a command that take rights from it."""
    return [wanted_tool("setpriv"), *words]
