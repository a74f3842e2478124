# SPDX-License-Identifier: Apache-2.0
"""Talks to a daemon as an operator over the loopback interface, and compares its answers with those of a model."""

import itertools
import pathlib
import re
import secrets
import socket
import subprocess
import tempfile
import time

import operator_model

SECONDS = 30
PORT = 8620


def can_run(program):
    """Whether the program has the command."""
    ended = subprocess.run([program, "run", "/nowhere/stampd.toml"], stdin=subprocess.DEVNULL, capture_output=True, timeout=SECONDS)
    return ended.returncode != 2


def fresh_address():
    """An address of the loopback network at which hardly anybody else listens."""
    return f"127.{1 + secrets.randbelow(254)}.{secrets.randbelow(256)}.{1 + secrets.randbelow(254)}"


def connection(process, address):
    """A connection to the operator's port, as soon as the daemon listens."""
    until = time.monotonic() + SECONDS
    while True:
        try:
            return socket.create_connection((address, PORT), timeout=SECONDS)
        except ConnectionRefusedError:
            if process.poll() is not None or time.monotonic() > until:
                raise
            time.sleep(0.001)


def answers_to(stream, octets):
    """All that the daemon answers to these octets before the connection ends. They are sent in pieces of uneven lengths."""
    stream.setsockopt(socket.IPPROTO_TCP, socket.TCP_NODELAY, 1)
    try:
        for length in itertools.cycle((1, 40, 700, 3, 4096)):
            if not octets:
                break
            stream.sendall(octets[:length])
            octets = octets[length:]
        stream.shutdown(socket.SHUT_WR)
    except OSError:
        # The daemon has hung up.
        pass
    found = b""
    try:
        while piece := stream.recv(65_536):
            found += piece
    except ConnectionResetError:
        pass
    return found


def end_of(process, desk):
    """What is wrong with the end that a `quit` has led to."""
    told, _ = process.communicate(timeout=SECONDS)
    last = f"sessions live {len(desk.sessions)} closed {desk.closed} expired 0\n"
    if process.returncode != 0 or not re.search(r"^worker 0 .* end\ndesk events \d+ faults 0 quit\n", told) or not told.endswith(last):
        return f"status {process.returncode} and {told!r} in place of status 0 and {last!r}"
    return None


def difference(program, pieces):
    """What is wrong with the answers of a daemon to these pieces of an operator, or with how it ends where they say so."""
    talks, desk = operator_model.talk(pieces)
    with tempfile.TemporaryDirectory() as folder:
        address = fresh_address()
        file = pathlib.Path(folder, "stampd.toml")
        file.write_text(operator_model.FILE.format(address=address))
        process = subprocess.Popen([program, "run", file], stdin=subprocess.DEVNULL, stdout=subprocess.PIPE, text=True)
        try:
            for sent, wanted in talks:
                with connection(process, address) as stream:
                    found = answers_to(stream, sent)
                if found != wanted:
                    return f"{found!r} in place of {wanted!r}"
            return end_of(process, desk) if desk.ended else None
        except (OSError, subprocess.TimeoutExpired) as fault:
            return f"{type(fault).__name__}: {fault}"
        finally:
            process.kill()
            process.communicate()
