# SPDX-License-Identifier: Apache-2.0
"""stampctl waits for a daemon, ends one, and watches one."""

import contextlib
import fcntl
import os
import pty
import re
import struct
import subprocess
import sys
import termios
import time

from stampctl import watching
from stampctl_calls import *

TURNS = 20


# ---- beginnings and ends


@check
def wait_returns_when_the_daemon_answers(program, folder):
    local, operator = free_ports(2)
    file = written(folder, toml(locals=[at(local)], operator=at(operator)) + "[configs.edge]\n")
    words = [STAMPCTL, "-s", at(operator), "wait", SECONDS]
    with running(*words) as waiting:
        with contextlib.suppress(subprocess.TimeoutExpired):
            raise AssertionError(f"nobody answers, and it ended with {waiting.wait(0.5)}")
        with Daemon(program, file, operator) as daemon:
            assert waiting.wait(SECONDS) == 0, waiting.returncode
            assert output(*words, "--pid", daemon.process.pid) == ("", 0)


@check
def wait_tells_what_was_waited_for_in_vain(program, folder):
    server = at(free_ports(1)[0])
    began = time.monotonic()
    told, status = controls(server, "wait", "1")
    assert (told, status) == (f"stampctl: {server}: Connection refused; waited 1 s\n", 4), (told, status)
    assert time.monotonic() - began >= 1
    with serving(program, folder) as (_, server, file):
        with running(program, "run", file, stdout=subprocess.DEVNULL) as late:
            began = time.monotonic()
            told, status = controls(server, "wait", SECONDS, "--pid", late.pid)
            assert time.monotonic() - began < SECONDS and late.wait() == 9
        assert status == 4 and "answers there" in told and f"process {late.pid} has ended" in told, (status, told)


@check
def quit_that_waits_returns_behind_the_report(program, folder):
    """A daemon that is told to end at the very moment has written its report, and its addresses are free."""
    *locals_, operator = free_ports(4)
    keys = dict(locals=[at(port) for port in locals_], operator=at(operator), workers=3)
    file = written(folder, toml(**keys) + "[configs.edge]\n")
    for turn in range(TURNS):
        with Daemon(program, file, operator) as daemon:
            told = controls(at(operator), "quit", "--wait")
            daemon.process.terminate()
            assert told == ("", 0), (turn, told)
            assert daemon.ended().end == "quit", turn


@check
def quit_that_waits_tells_a_daemon_that_does_not_end(program, folder):
    """It has said `bye`, and is kept from ending: its report can't be written."""
    local, operator = free_ports(2)
    keys = dict(locals=[at(local)], operator=at(operator))
    file = written(folder, toml(**keys) + "[configs.edge]\n")
    with running(program, "run", file, stdout=subprocess.PIPE, stdin=subprocess.DEVNULL) as process:
        fcntl.fcntl(process.stdout, fcntl.F_SETPIPE_SZ, 4096)
        filler = os.open(f"/proc/self/fd/{process.stdout.fileno()}", os.O_WRONLY)
        os.write(filler, bytes(4096))
        assert controls(at(operator), "wait", SECONDS) == ("", 0)
        told, status = controls(at(operator), "quit", "--wait", "1", "--pid", process.pid)
        wanted = f"stampctl: {at(operator)}: process {process.pid} hasn't ended within 1 s\n"
        os.close(filler)
        report = process.communicate(timeout=SECONDS)[0]
    assert (told, status) == (wanted, 4), (told, status)
    assert read_report(report.lstrip(b"\0").decode()).end == "quit"


@check
def quit_that_waits_finds_the_process_over_ipv6(program, folder):
    """Over a connection of IPv6, and over one of IPv4 to a socket of both."""
    wanted_ipv6()
    for own, server in ((SIX, "[::1]"), (SIX.replace("1]", "0]"), HOST)):
        local, operator = free_ports(2)
        file = written(folder, toml(locals=[at(local)], operator=f"{own}:{operator}") + "[configs.edge]\n")
        with running(program, "run", file, stdout=subprocess.PIPE, stdin=subprocess.DEVNULL, text=True) as process:
            told = controls(f"{server}:{operator}", "wait", SECONDS, "--pid", process.pid)
            assert told == ("", 0), told
            told = controls(f"{server}:{operator}", "quit", "--wait")
            process.terminate()
            assert told == ("", 0), told
            assert read_report(process.communicate(timeout=SECONDS)[0]).end == "quit", own


@check
def quit_ends_no_other_process_than_the_one_named(program, folder):
    with serving(program, folder) as (daemon, server, _), running("sleep", "60") as other:
        told, status = controls(server, "quit", "--wait", "--pid", other.pid)
        wanted = f"process {daemon.process.pid} answers there, and not {other.pid}; it goes on"
        assert (told, status) == (f"stampctl: {server}: {wanted}\n", 4), (told, status)
        assert controls(server, "quit", "--pid", str(2**31 - 1))[1] == 4
        assert daemon.operator.ask("list") == "ok 0"
        assert controls(server, "quit", "--pid", daemon.process.pid) == ("", 0)
        assert daemon.ended().end == "quit"


@check
def quit_that_cannot_see_the_process_asks_nothing(program, folder):
    if os.geteuid():
        raise Skipped("root alone runs a program as another user")
    stampctl = [*wanted_setpriv("--reuid=65534", "--clear-groups"), "python3", readable_archive(folder)]
    other_python = output(*stampctl, "--version", env={"PATH": "/usr/bin:/bin"})
    if other_python[1]:
        raise Skipped(f"another user has no Python here: {other_python[0].strip()}")
    with serving(program, folder) as (daemon, server, _):
        words = [*stampctl, "-s", server, "quit", "--wait"]
        told, status = output(*words, env={"PATH": "/usr/bin:/bin"})
        assert status == 4 and "can't be seen" in told and told.count("\n") == 1, (status, told)
        assert daemon.operator.ask("list") == "ok 0"
        told = output(*words, "--pid", daemon.process.pid, env={"PATH": "/usr/bin:/bin"})
        assert told == ("", 0), told
        assert daemon.ended().end == "quit"


# ---- watch


def screen_of(words, lines, columns, turns):
    """What a command writes to a terminal of this size until so many screens are there, without its control characters."""
    ours, terminal = pty.openpty()
    fcntl.ioctl(terminal, termios.TIOCSWINSZ, struct.pack("HHHH", lines, columns, 0, 0))
    environment = {name: value for name, value in os.environ.items() if name not in ("LINES", "COLUMNS")}
    told = b""
    with running(*words, stdout=terminal, stderr=terminal, env=environment) as process:
        os.close(terminal)
        with contextlib.suppress(OSError):
            while octets := os.read(ours, 65_536):
                told += octets
        os.close(ours)
        assert process.wait(SECONDS) == 0, told
    screens = told.decode().replace("\r", "").split("\033[H\033[2J")[1:]
    assert len(screens) == turns, told
    return [each.splitlines() for each in screens]


@check
def watch_shows_the_busiest_and_the_sum_within_the_terminal(program, folder):
    quiet = "".join(session(f"192.0.2.{number}:5000") for number in range(1, 45))
    with sender() as made, serving(program, folder, quiet + session(ends_of(made), 7)) as (daemon, server, _):
        words = [STAMPCTL, "-s", server, "watch", "--seconds", "3"]
        flooding = [sys.executable, "-c", FLOOD, str(made.fileno()), str(daemon.port)]
        with running(*flooding, pass_fds=[made.fileno()]):
            screens = screen_of(words, 24, 80, 3)
        for screen in screens:
            assert len(screen) == 23, screen
            assert screen[0].split() == "LOCAL PEER MODE SSID DRAWS DRAWS/S".split(), screen[0]
            assert screen[-2] == "(25 more)" and screen[-1].startswith("SUM    45 sessions"), screen[-2:]
        for screen in screens[1:]:
            local, peer, mode, ssid, draws, rate = screen[1].split()
            assert (peer, mode, ssid) == (ends_of(made), "plain", "7") and int(rate) > 0, screen[1]
            assert screen[-1].split()[-2:] == [draws, rate], (screen[1], screen[-1])


FLOOD = """
import socket, sys, time
made = socket.socket(fileno=int(sys.argv[1]))
made.setblocking(True)
number = 0
while True:
    number += 1
    made.sendto(number.to_bytes(4, "big") + bytes(8) + b"\\0\\1\\0\\7" + bytes(28), ("127.0.0.1", int(sys.argv[2])))
    made.recv(1000)
    time.sleep(0.002)
"""


@check
def a_count_that_wraps_or_begins_anew_has_its_rate(program, folder):
    for before, after, wanted in ((5, 7, 2), (2**32 - 1, 1, 2), (0, 0, 0), (100, 3, 3)):
        assert watching.drawn(before, after) == wanted, (before, after, watching.drawn(before, after))


@check
def watch_keeps_within_the_columns_of_the_terminal(program, folder):
    """Addresses of IPv6 are written short, so that the last column is there in 80 columns."""
    wide = "[2001:0db8:1111:2222:0000:0000:0000:0001]:50000"
    with serving(program, folder, session(wide, 65535)) as (_, server, _):
        words = [STAMPCTL, "-s", server, "watch", "--seconds", "2"]
        _, last = screen_of(words, 24, 80, 2)
        assert last[1].split() == ["0", "[2001:db8:1111:2222::1]:50000", "plain", "65535", "0", "0"], last
        _, narrow = screen_of(words, 24, 40, 2)
        assert max(map(len, narrow)) == 40, narrow
        assert wide in controls(server, "watch", "--seconds", "1")[0]


@check
def watch_prints_all_where_there_is_no_terminal(program, folder):
    quiet = "".join(session(f"192.0.2.{number}:5000") for number in range(1, 45))
    with serving(program, folder, quiet) as (_, server, _):
        told, status = controls(server, "watch", "--seconds", "2", env=os.environ | {"LINES": "10"})
        assert status == 0 and told.count("DRAWS/S") == 2 and told.count("192.0.2.") == 88 and "more" not in told, told
        assert re.search(r"^SUM    44 sessions +0 +0$", told, re.M), told


@check
def watch_goes_on_when_the_daemon_comes_back(program, folder):
    local, operator = free_ports(2)
    file = written(folder, toml(locals=[at(local)], operator=at(operator)) + "[configs.edge]\n" + session("192.0.2.1:5000"))
    assert controls(at(operator), "watch", "--seconds", "1") == (f"stampctl: {at(operator)}: Connection refused\n", 3)
    with contextlib.ExitStack() as stack:
        words = [STAMPCTL, "-s", at(operator), "watch", "--seconds", SECONDS]
        with Daemon(program, file, operator) as daemon:
            watch = stack.enter_context(running(*words, stdout=subprocess.PIPE, text=True))
            read_until(watch.stdout, "SUM ")
            daemon.quit()
        assert read_until(watch.stdout, "trying again").startswith(f"{at(operator)}: ")
        with Daemon(program, file, operator) as daemon:
            read_until(watch.stdout, "SUM ")
            daemon.quit()


def read_until(stream, text):
    for line in stream:
        if text in line:
            return line
    raise AssertionError(f"no {text!r}")
