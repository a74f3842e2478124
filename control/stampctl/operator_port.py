# SPDX-License-Identifier: Apache-2.0
"""A connection to the operator's port of a daemon."""

import re
import socket
from concurrent.futures import ThreadPoolExecutor
from typing import NamedTuple

from stampctl.faults import Fault, Refused, Unreachable, cause_of
from stampctl.words import host_and_port

SECONDS = 10
CONNECTIONS = 32
SESSION = re.compile(r"(\d+) (\S+) (plain|auth|twamp) (\d+) (\d+)\n")


class Session(NamedTuple):
    """What names a session. As a text it is as an operator's line has it."""

    local: int
    peer: str
    mode: str
    ssid: int

    def __str__(self):
        return f"{self.local} {self.peer} {self.mode} {self.ssid}"


class Operator:
    """A connection, a line at a time. Each fault names the server."""

    def __init__(self, server, seconds=SECONDS):
        self.server = server
        self.is_answered = False
        try:
            self.stream = socket.create_connection(host_and_port(server), seconds)
        except (OSError, UnicodeError) as fault:
            raise self.unreachable(cause_of(fault) if isinstance(fault, OSError) else "no name of a host") from None
        self.lines = self.stream.makefile("r", encoding="ascii", newline="\n")

    def __enter__(self):
        return self

    def __exit__(self, *_):
        self.lines.close()
        self.stream.close()

    def unreachable(self, cause):
        return Unreachable(f"{self.server}: {cause}")

    def ask(self, line):
        """The answer to a line, without the `ok ` of a number. A refusal is an exception."""
        try:
            self.stream.sendall(f"{line}\n".encode("ascii"))
        except (BrokenPipeError, ConnectionResetError):
            raise self.hung_up() from None
        except OSError as fault:
            raise self.unreachable(cause_of(fault)) from None
        answer = self.read().rstrip("\n")
        if answer.startswith("refused "):
            raise Refused(f"{self.server}: refused: {answer.removeprefix('refused ')}")
        return answer.removeprefix("ok ")

    def read(self):
        try:
            line = self.lines.readline()
        except ConnectionResetError:
            raise self.hung_up() from None
        except OSError as fault:
            raise self.unreachable(cause_of(fault)) from None
        except UnicodeDecodeError:
            raise self.unreachable("what answers there is no stampd") from None
        if not line.endswith("\n"):
            raise self.hung_up()
        self.is_answered = True
        return line

    def stranger(self, answer):
        return self.unreachable(f"what answers there is no stampd: {answer.strip()!r}")

    def hung_up(self):
        if self.is_answered:
            return self.unreachable("the daemon closed the connection")
        cause = f"no stampd, or one whose {CONNECTIONS} connections are all taken"
        return self.unreachable(f"the connection was closed before any answer: {cause}")

    def number(self, line):
        """The number that answers a line."""
        answer = self.ask(line)
        if not answer.isdigit():
            raise self.stranger(answer)
        return int(answer)

    def sessions(self):
        """Each open session, in the order of their openings, with how many numbers it has drawn."""
        found = {}
        answer = self.ask("list") + "\n"
        while session := SESSION.fullmatch(answer):
            local, peer, mode, ssid, draws = session.groups()
            found[Session(int(local), peer, mode, int(ssid))] = int(draws)
            answer = self.read()
        if answer.strip().removeprefix("ok ") != str(len(found)):
            raise self.stranger(answer)
        return found


def ask_each(servers, ask):
    """What each server answers to `ask(operator)`, in order, and the faults of those that don't. All are asked at once."""

    def answer_of(server):
        try:
            with Operator(server) as operator:
                return server, ask(operator)
        except Fault as fault:
            return fault

    with ThreadPoolExecutor(len(servers)) as pool:
        found = list(pool.map(answer_of, servers))
    faults = [each for each in found if isinstance(each, Fault)]
    return [each for each in found if not isinstance(each, Fault)], faults
