# SPDX-License-Identifier: Apache-2.0
"""The commands that wait for a daemon: until it serves, and until it has ended."""

import time

from stampctl.faults import InVain, Unreachable
from stampctl.operator_port import SECONDS, Operator
from stampctl.system import Process, process_behind

PAUSE = 0.05  # seconds between two tries to connect


def process_of(number):
    """The process of that number, or none where no number is given."""
    try:
        return None if number is None else Process(number)
    except ProcessLookupError:
        raise InVain(f"there is no process {number}") from None


def wait(options):
    """Until the daemon answers. Its ports are open by then: it opens the desk behind them."""
    process = process_of(options.pid)
    until = time.monotonic() + options.seconds
    while (left := until - time.monotonic()) > 0:
        cause = other_answer(options.server, process, min(left, SECONDS))
        if cause is None:
            return
        if process is None:
            time.sleep(PAUSE)
        elif process.has_ended(PAUSE):
            raise InVain(f"{cause}; process {process.number} has ended")
    raise InVain(f"{cause}; waited {options.seconds} s")


def other_answer(server, process, seconds):
    """Why the daemon, of this process where one is named, doesn't answer within this time; none where it does."""
    try:
        with Operator(server, seconds) as operator:
            operator.sessions()
            behind = process_behind(operator.stream)
    except Unreachable as fault:
        return str(fault)
    if process and behind not in (None, process.number):
        return f"{server}: process {behind} answers there"
    return None


def quit_daemon(options):
    """Ends the daemon. With a time to wait it returns when the process has ended, and so has written its report and left
    its addresses. Where that can't be seen, or the process is another than the one named, nothing is asked."""
    with Operator(options.server) as operator:
        process = None
        if options.wait is not None or options.pid is not None:
            process = process_to_end(operator, options.pid)
        if (answer := operator.ask("quit")) != "bye":
            raise operator.stranger(answer)
    if options.wait is not None and not process.has_ended(options.wait):
        raise InVain(f"{operator.server}: process {process.number} hasn't ended within {options.wait} s")


def process_to_end(operator, number):
    operator.sessions()  # once answered, the connection is the daemon's
    process = process_of(number)
    behind = process_behind(operator.stream)
    if process and behind not in (None, process.number):
        raise InVain(f"{operator.server}: process {behind} answers there, and not {process.number}; it goes on")
    try:
        process = process or process_of(behind)
    except InVain:
        process = None
    if process is None:
        raise InVain(f"{operator.server}: its process can't be seen from here, so name it by --pid; it goes on")
    return process
