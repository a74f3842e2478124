# SPDX-License-Identifier: Apache-2.0
"""What the checks of the tools share: captures of their own, and a daemon that stampd-run runs."""

import contextlib
import os
import pathlib
import signal
import socket
import subprocess
import time

import captures
from checks import TOP, Checks, Skipped, output, wanted_tool
from daemon import *

MOMENT = 1_764_691_200 * 10**9  # 2 December 2025, 16:00
check = Checks()


def capture_of(folder, *datagrams):
    """A capture of datagrams as (source, destination, octets), a microsecond apart."""
    file = pathlib.Path(folder, "capture")
    file.write_bytes(captures.write(
        captures.Datagram(MOMENT + 1000 * at, address(source), address(destination), 64, octets)
        for at, (source, destination, octets) in enumerate(datagrams)
    ))
    return file


def address(text):
    host, _, port = text.rpartition(":")
    family = socket.AF_INET6 if ":" in host else socket.AF_INET
    return captures.Endpoint(socket.inet_pton(family, host.strip("[]")), int(port))


def runner(program, folder):
    """stampd-run beside the program and its client, as an installation has them."""
    there = pathlib.Path(folder, "bin")
    there.mkdir(exist_ok=True)
    for name, target in (("stampd", program), ("stampctl", TOP / "stampctl")):
        if not (there / name).exists():
            (there / name).symlink_to(target)
    made = there / "stampd-run"
    made.write_text((TOP / "packaging" / "stampd-run").read_text())
    made.chmod(0o755)
    return made


@contextlib.contextmanager
def running(runner_there, file, operator):
    """A run by stampd-run, in a group of processes of its own, from the moment at which the daemon serves."""
    streams = {"stdin": subprocess.DEVNULL, "stdout": subprocess.PIPE, "stderr": subprocess.PIPE, "text": True}
    process = subprocess.Popen([runner_there, file], start_new_session=True, **streams)
    try:
        until = time.monotonic() + SECONDS
        while True:
            assert process.poll() is None and time.monotonic() < until, process.communicate()
            with contextlib.suppress(ConnectionRefusedError), socket.create_connection((HOST, operator), SECONDS):
                break
            time.sleep(0.05)
        yield process
    finally:
        with contextlib.suppress(ProcessLookupError):
            os.killpg(process.pid, signal.SIGKILL)
        process.communicate()
