# SPDX-License-Identifier: Apache-2.0
"""A daemon on the loopback interface, its operator, and session senders, for the scripts that talk to one."""

import contextlib
import hashlib
import hmac
import pathlib
import re
import socket
import subprocess
import time
from typing import NamedTuple

SECONDS = 20
HOST = "127.0.0.1"
WORKER = re.compile(
    r"worker (\d+) taken (\d+) sent (\d+) nosession (\d+) short (\d+) badhmac (\d+) changed (\d+) noreply (\d+)"
    r" sendfault (\d+) recvfault (\d+) (end|limit|budget|port)"
)
DESK = re.compile(r"desk events (\d+) faults (\d+) (end|quit|budget|desk)")
SESSIONS = re.compile(r"sessions live (\d+) closed (\d+) expired (\d+)")


class Worker(NamedTuple):
    number: int
    taken: int
    sent: int
    nosession: int
    short: int
    badhmac: int
    changed: int
    noreply: int
    sendfault: int
    recvfault: int
    end: str


class Report(NamedTuple):
    workers: list
    events: int
    faults: int
    end: str
    live: int
    closed: int
    expired: int

    def sum(self, name):
        return sum(getattr(worker, name) for worker in self.workers)


def numbered(found):
    return [int(each) if each.isdigit() else each for each in found.groups()]


def read_report(text):
    """The report that a text spells, line by line. It is an AssertionError where it spells none."""
    assert text.count("\n") > 2, f"no report: {text!r}"
    *workers, desk, sessions, last = text.split("\n")
    found = [WORKER.fullmatch(line) for line in workers] + [DESK.fullmatch(desk), SESSIONS.fullmatch(sessions)]
    if not all(found) or last:
        raise AssertionError(f"no report: {text!r}")
    *of_workers, of_desk, of_sessions = map(numbered, found)
    told = [Worker(*each) for each in of_workers]
    assert [worker.number for worker in told] == list(range(len(told))), text
    return Report(told, *of_desk, *of_sessions)


def free_ports(count):
    """Ports that nobody holds at this moment, neither for datagrams nor for connections."""
    found = []
    with contextlib.ExitStack() as stack:
        while len(found) < count:
            kinds = (socket.SOCK_STREAM, socket.SOCK_DGRAM)
            stream, datagrams = (stack.enter_context(socket.socket(type=kind)) for kind in kinds)
            stream.bind((HOST, 0))
            with contextlib.suppress(OSError):
                datagrams.bind(stream.getsockname())
                found.append(stream.getsockname()[1])
    return found


class Daemon:
    """`stampd run FILE`, from the moment at which an operator can connect until it is told to quit."""

    def __init__(self, program, file, operator_port):
        self.operator_port = operator_port
        self.process = subprocess.Popen(
            [program, "run", file], stdin=subprocess.DEVNULL, stdout=subprocess.PIPE, stderr=subprocess.PIPE, text=True
        )

    def __enter__(self):
        self.operator = Operator(self.connection())
        return self

    def __exit__(self, *_):
        if self.process.poll() is None:
            self.process.kill()
        self.process.communicate()
        self.operator.close()

    def connection(self, port=None):
        """A connection to the operator's or another port, at which the daemon may be about to listen."""
        until = time.monotonic() + SECONDS
        while True:
            try:
                return socket.create_connection((HOST, port or self.operator_port), SECONDS)
            except ConnectionRefusedError:
                if self.process.poll() is not None:
                    raise AssertionError(f"the daemon ended: {self.process.communicate()[0]!r}") from None
                if time.monotonic() > until:
                    raise
                time.sleep(0.05)

    def quit(self):
        """The report, once the daemon has obeyed and ended."""
        assert self.operator.ask("quit") == "bye"
        return self.ended()

    def ended(self):
        told, faults = self.process.communicate(timeout=SECONDS)
        assert (self.process.returncode, faults) == (0, ""), (self.process.returncode, told, faults)
        return read_report(told)


class Operator:
    """Lines to the operator's port, and their answers."""

    def __init__(self, stream):
        self.stream = stream
        self.lines = stream.makefile("r", encoding="ascii", newline="\n")

    def ask(self, line):
        self.stream.sendall(line.encode("ascii") + b"\n")
        return self.line()

    def line(self):
        return self.lines.readline().removesuffix("\n")

    def number(self, line):
        """The number of an answer `ok N`; none where the line is refused."""
        answer = self.ask(line)
        return int(answer.removeprefix("ok ")) if answer.startswith("ok ") else None

    def close(self):
        self.lines.close()
        self.stream.close()


# ---- session senders


def sender(port=0):
    """A socket at this port, or at one that the system chooses."""
    made = socket.socket(socket.AF_INET, socket.SOCK_DGRAM)
    made.bind((HOST, port))
    made.settimeout(SECONDS)
    return made


def ends_of(made):
    return f"{HOST}:{made.getsockname()[1]}"


def mac(key, octets):
    return hmac.new(key, octets, hashlib.sha256).digest()[:16]


def plain_request(sequence, ssid, tail=b""):
    """An unauthenticated request (RFC 8762, section 4.2.1), with a timestamp that tells it from others."""
    return sequence.to_bytes(4, "big") + timestamp_of(sequence) + b"\0\1" + ssid.to_bytes(2, "big") + bytes(28) + tail


def authenticated_request(sequence, ssid, key):
    """An authenticated request (RFC 8762, section 4.2.2)."""
    head = sequence.to_bytes(4, "big") + bytes(12) + timestamp_of(sequence) + b"\0\1" + ssid.to_bytes(2, "big")
    return (covered := head + bytes(68)) + mac(key, covered)


def twamp_request(sequence):
    """A TWAMP-Test packet of the shortest length (RFC 5357, section 4.1.2)."""
    return sequence.to_bytes(4, "big") + timestamp_of(sequence) + b"\0\1"


def timestamp_of(sequence):
    return (sequence * 0x9E3779B97F4A7C15 % 2**64).to_bytes(8, "big")


def toml(**keys):
    """The lines of a file that has these keys at its root."""
    spelled = lambda value: f'"{value}"' if isinstance(value, str) else str(value).replace("'", '"')
    return "".join(f"{name} = {spelled(value)}\n" for name, value in keys.items())


def written(folder, text):
    file = pathlib.Path(folder, "stampd.toml")
    file.write_text(text)
    return file
