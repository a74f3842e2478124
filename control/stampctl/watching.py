# SPDX-License-Identifier: Apache-2.0
"""The command `watch`: the sessions again each second, the busiest first."""

import contextlib
import ipaddress
import shutil
import sys
import time

from stampctl.faults import Unreachable
from stampctl.operator_port import Operator
from stampctl.output import table, tell
from stampctl.session_commands import HEADS
from stampctl.words import host_and_port, is_ipv6

CLEAR = "\033[H\033[2J"
MODULUS = 2**32


class Watch:
    """What one daemon draws from turn to turn, over as many connections as it takes."""

    def __init__(self, server):
        self.server = server
        self.operator = Operator(server)
        self.before, self.moment = {}, None

    def turn(self):
        """The sessions with their draws and, where they were there a turn ago, draws a second. An Unreachable fault, after
        which the next turn connects anew."""
        try:
            self.operator = self.operator or Operator(self.server)
            sessions, now = self.operator.sessions(), time.monotonic()
        except Unreachable:
            self.leave()
            self.before = {}
            raise
        rates = {
            session: drawn(self.before[session], draws) / (now - self.moment)
            for session, draws in sessions.items()
            if session in self.before
        }
        self.before, self.moment = sessions, now
        return sessions, rates

    def leave(self):
        if self.operator:
            self.operator.__exit__()
            self.operator = None


def drawn(before, after):
    """How many numbers were drawn in between. One that counts anew, having been closed and opened, has drawn its count."""
    found = (after - before) % MODULUS
    return found if found < MODULUS // 2 else after


def screen(sessions, rates, size):
    """Lines: heads, the busiest sessions, and the sum. Where a size (columns, lines) is given they are within it: IPv6 is
    written short, and the sessions that have no room are counted."""
    order = sorted(sessions, key=lambda session: -rates.get(session, 0))
    rows = [row_of(session, sessions[session], rates.get(session), size is not None) for session in order]
    total = f"{sum(rates.values()):.0f}" if rates else ""
    rows = [(*HEADS, "DRAWS/S"), *rows, ("SUM", f"{len(sessions)} sessions", "", "", sum(sessions.values()), total)]
    lines = table(rows)
    if size is None:
        return lines
    columns, height = size
    if len(lines) > height:
        shown = max(height - 3, 0)
        lines = [lines[0], *lines[1 : 1 + shown], f"({len(sessions) - shown} more)", lines[-1]]
    return [line[:columns] for line in lines]


def row_of(session, draws, rate, is_short):
    local, peer, mode, ssid = session
    host, port = host_and_port(peer)
    if is_short and is_ipv6(peer):
        peer = f"[{ipaddress.ip_address(host).compressed}]:{port}"
    return local, peer, mode, ssid, draws, "" if rate is None else f"{rate:.0f}"


def watch(options):
    """So many turns, or turns without end. A daemon that goes is told and tried again; one that isn't there at the start is
    a fault."""
    with contextlib.suppress(KeyboardInterrupt):
        watched = Watch(options.server)
        for turn in range(options.seconds or sys.maxsize):
            if turn:
                time.sleep(1)
            is_terminal = sys.stdout is not None and sys.stdout.isatty()
            size = shutil.get_terminal_size() if is_terminal else None
            try:
                lines = screen(*watched.turn(), (size.columns, size.lines - 1) if size else None)
            except Unreachable as fault:
                lines = [f"{fault}; trying again"]
            tell((CLEAR if is_terminal else "") + "\n".join(lines))
