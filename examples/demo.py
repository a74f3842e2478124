# SPDX-License-Identifier: Apache-2.0
"""Shows the daemon at work on this machine, or a stream that is replayed, by the proved program or before it is proved."""

import contextlib
import os
import pathlib
import signal
import socket
import subprocess
import sys
import threading
import time

TOP = pathlib.Path(__file__).resolve().parent.parent
sys.path.insert(0, str(TOP / "tools"))

import compilation
import proof_time
import session
import show

USAGE = """usage: ./demo [--proved | --program PROGRAM]
       ./demo [--proved | --program PROGRAM] replay [RECORDS]

The first serves by examples/lab.toml at 127.0.0.1, sends datagrams to the daemon, operates it, and shows its report.
The second replays RECORDS, a file of records as docs/FORMATS.md has them, and prints each record beside its answer.

    RECORDS             the stream; without it, examples/first.replay
    --proved            builds the proved program first, by ./build
    --program PROGRAM   a program that is there

With neither, the proved program is taken where it is built of these sources, and else these sources are compiled
without proofs."""
BUILT = TOP / "crates" / "stampd" / "out" / "stampd"
TRIED = TOP / "tools" / "tried"
SOURCES = ("src", "specs", "proofs")


def is_built():
    """Whether the proved program is there, and no source of what it stands on is newer."""
    named = proof_time.crates()
    folders = [TOP / "crates" / crate / part for crate in proof_time.stands_on("stampd", named) for part in SOURCES]
    files = [TOP / "crates.txt", *(each for folder in folders for each in [folder, *folder.rglob("*")] if each.exists())]
    return BUILT.exists() and max(file.stat().st_mtime for file in files) < BUILT.stat().st_mtime


def tell(text):
    print(text, file=sys.stderr, flush=True)


@contextlib.contextmanager
def told_waiting(what):
    """On a terminal, a line that tells how long something takes, until this ends."""
    ends = threading.Event()
    begun = time.monotonic()

    def draw():
        while not ends.wait(1):
            print(f"\r\x1b[K{what}: {time.monotonic() - begun:.0f} s so far", end="", file=sys.stderr, flush=True)

    drawing = threading.Thread(target=draw, daemon=True)
    if sys.stderr.isatty():
        drawing.start()
    try:
        yield
    finally:
        ends.set()
        if sys.stderr.isatty():
            drawing.join()
            print("\r\x1b[K", end="", file=sys.stderr, flush=True)


# ---- ports


def holder(protocol, port):
    """The program that has a port, where the system tells."""
    held = set()
    for table in (protocol, f"{protocol}6"):
        with contextlib.suppress(OSError):
            for line in pathlib.Path("/proc/net", table).read_text().splitlines()[1:]:
                fields = line.split()
                if int(fields[1].rpartition(":")[2], 16) == port:
                    held.add(f"socket:[{fields[9]}]")
    for descriptor in pathlib.Path("/proc").glob("[0-9]*/fd/*"):
        with contextlib.suppress(OSError):
            if os.readlink(descriptor) in held:
                process = descriptor.parts[2]
                return f"{pathlib.Path('/proc', process, 'comm').read_text().strip()}, process {process}"
    return "a program that the system doesn't name"


def port_in_use():
    """What is wrong with the first port that somebody else has; none where all are free."""
    for kind, protocol, (host, port) in (
        (socket.SOCK_DGRAM, "udp", session.REFLECTOR),
        (socket.SOCK_STREAM, "tcp", session.OPERATOR),
        (socket.SOCK_DGRAM, "udp", session.SENDER),
    ):
        with socket.socket(type=kind) as one:
            if kind == socket.SOCK_STREAM:
                one.setsockopt(socket.SOL_SOCKET, socket.SO_REUSEADDR, 1)
            try:
                one.bind((host, port))
            except OSError:
                return f"{protocol} port {port} of {host} is in use, by {holder(protocol, port)}: end that first"
    return None


# ---- which program


def wanted_program(words):
    """The program, whether it is a tried one, and the words that are left."""
    match words:
        case ["--program", program, *rest]:
            return os.path.abspath(program), os.path.abspath(program) == str(TRIED), rest
        case ["--proved", *rest]:
            return None, False, rest
    return (BUILT, False, words) if is_built() else (TRIED, True, words)


def build():
    ended = subprocess.run([TOP / "build"], stdout=subprocess.PIPE, text=True)
    return ended.stdout.strip() if ended.returncode == 0 else None


def shown(program, tried, records):
    """Shows a session, or a replay of records, and gives the status."""
    waiting = told_waiting("compiling") if tried else contextlib.nullcontext()
    return session.show(program, waiting, tried) if records is None else show.show(program, records, waiting, tried)


def main(words):
    if words in (["-h"], ["--help"]):
        print(USAGE)
        return 0
    program, tried, rest = wanted_program(words)
    match rest:
        case []:
            records = None
        case ["replay"]:
            records = TOP / "examples" / "first.replay"
        case ["replay", records] if not records.startswith("-"):
            pass
        case _:
            tell(USAGE)
            return 2
    program = program or build()
    if program is None:
        return 1
    if records is None and (fault := port_in_use()):
        tell(f"demo: {fault}")
        return 1
    if tried and (missing := compilation.lack()):
        tell(f"demo: {missing}")
        return 1
    proves = f"./build proves {{}}, in {proof_time.build_time()}."
    if tried:
        tell(f"These sources are compiled without proofs, in about half a minute; {proves.format('them')}")
    status = shown(program, tried, records)
    if tried and status == 0:
        tell(f"What was shown was compiled from these sources and isn't proved yet; {proves.format('it')}")
    return status


if __name__ == "__main__":
    for number in (signal.SIGTERM, signal.SIGHUP):
        signal.signal(number, lambda number, _: sys.exit(128 + number))
    try:
        sys.exit(main(sys.argv[1:]))
    except KeyboardInterrupt:
        sys.exit(128 + signal.SIGINT)
    except BrokenPipeError:
        sys.exit(141)
