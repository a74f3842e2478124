# SPDX-License-Identifier: Apache-2.0
"""stampd-run: signals become a quit, and the report comes."""

import os
import pathlib
import signal

from tools_calls import *


def file_to_run(folder, **more):
    """A file with three addresses and as many workers, and its operator's port."""
    *ports, operator = free_ports(4)
    locals_of_file = [f"127.0.0.{at}:{port}" for at, port in enumerate(ports, 1)]
    keys = {"locals": locals_of_file, "workers": 3, "operator": f"{HOST}:{operator}"} | more
    return written(folder, toml(**keys) + "[configs.edge]\n"), operator


@check
def a_signal_to_the_runner_or_to_all_of_its_group_gives_the_report(program, folder):
    file, operator = file_to_run(folder)
    for number in (signal.SIGTERM, signal.SIGINT, signal.SIGHUP, signal.SIGQUIT):
        for send in (os.kill, os.killpg):
            with running(runner(program, folder), file, operator) as process:
                send(process.pid, number)
                told, faults = process.communicate(timeout=SECONDS)
            assert (process.returncode, faults) == (0, ""), (number, send, process.returncode, told, faults)
            assert read_report(told).end == "quit", told


@check
def an_operators_quit_ends_the_runner_too(program, folder):
    file, operator = file_to_run(folder)
    with running(runner(program, folder), file, operator) as process:
        assert output(TOP / "stampctl", "-s", f"{HOST}:{operator}", "quit") == ("", 0)
        told, _ = process.communicate(timeout=SECONDS)
    assert process.returncode == 0 and read_report(told).end == "quit", (process.returncode, told)


@check
def the_runner_has_the_status_of_its_daemon(program, folder):
    file, operator = file_to_run(folder)
    with running(runner(program, folder), file, operator) as process:
        assert output(runner(program, folder), file) == ("stampd: port failed\n", 9)
        assert process.poll() is None
        (daemon,) = pathlib.Path(f"/proc/{process.pid}/task/{process.pid}/children").read_text().split()
        os.kill(int(daemon), signal.SIGKILL)
        assert (process.communicate(timeout=SECONDS)[0], process.returncode) == ("", 128 + signal.SIGKILL)


@check
def what_the_runner_cannot_run_is_told_in_one_line(program, folder):
    lonely = pathlib.Path(folder, "lonely.toml")
    lonely.write_text(toml(locals=[f"{HOST}:{free_ports(1)[0]}"]) + "[configs.edge]\n")
    faulty = pathlib.Path(folder, "faulty.toml")
    faulty.write_text("workers = 65\n")
    nobody = f"stampd-run: {lonely} names no operator, and without one nobody can end the daemon and have its report\n"
    for words, wanted in (
        ([], ("usage: stampd-run FILE\n", 2)),
        ([lonely, lonely], ("usage: stampd-run FILE\n", 2)),
        (["/no/such/file"], ("stampd: file failed\n", 5)),
        ([faulty], ("stampd: configuration: missing locals\n", 3)),
        ([lonely], (nobody, 3)),
    ):
        found = output(runner(program, folder), *words)
        assert found == wanted, (words, found)
