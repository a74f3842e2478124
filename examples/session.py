# SPDX-License-Identifier: Apache-2.0
"""Serves by examples/lab.toml, sends datagrams to the daemon, operates it by stampctl, and shows what comes of it."""

import contextlib
import pathlib
import signal
import socket
import subprocess
import sys
import time

TOP = pathlib.Path(__file__).resolve().parent.parent
FILE = TOP / "examples" / "lab.toml"
REFLECTOR, OPERATOR = ("127.0.0.1", 8862), ("127.0.0.1", 8620)
SENDER, SSID = ("127.0.0.1", 5000), 7
SESSION = ["0", "127.0.0.1:5000", "plain", "7"]
NTP_EPOCH = 2_208_988_800
LEAP_SECONDS = 37
PATIENCE = 5
COMPILATION = 900  # seconds that it may take, on a machine that is busy


def tlv(kind, value):
    """A TLV as its sender writes it (RFC 8972, section 4): with the flag U, which the reflector clears."""
    return bytes([0x80, kind]) + len(value).to_bytes(2, "big") + value


DATAGRAMS = (
    ("no TLV", b""),
    ("Extra Padding", tlv(1, bytes(16))),
    ("Direct Measurement", tlv(5, (3).to_bytes(4, "big") + bytes(8))),
)


def request(sequence, tail):
    """An unauthenticated datagram (RFC 8762, section 4.2.1)."""
    seconds, parts = divmod(time.time_ns(), 10**9)
    stamp = (seconds + NTP_EPOCH) % 2**32, (parts << 32) // 10**9
    head = sequence.to_bytes(4, "big") + b"".join(each.to_bytes(4, "big") for each in stamp)
    return head + b"\0\1" + SSID.to_bytes(2, "big") + bytes(28) + tail


def moment(octets, is_ptp):
    """Nanoseconds since the start of 1970, of a timestamp by a reflector whose PTP runs ahead by leap seconds."""
    seconds, parts = (int.from_bytes(octets[at : at + 4], "big") for at in (0, 4))
    if is_ptp:
        return (seconds - LEAP_SECONDS) * 10**9 + parts
    return (seconds - NTP_EPOCH) % 2**32 * 10**9 + (parts * 10**9 >> 32)


def told_of(reply):
    """What a reply says: its number, its delays, and its TLV."""
    now = time.time_ns()
    is_ptp = bool(reply[12] & 0x40)
    sent, came, left = moment(reply[28:36], False), moment(reply[16:24], is_ptp), moment(reply[4:12], is_ptp)
    text = f"reply {int.from_bytes(reply[:4], 'big')}, {'PTP' if is_ptp else 'NTP'}"
    text += f", there {(came - sent) / 1e6:.3f} ms, back {(now - left) / 1e6:.3f} ms"
    if tail := reply[44:]:
        text += f", TLV {tail[1]}, flags {tail[0]:#04x}"
        if tail[1] == 5:
            received, replied = (int.from_bytes(tail[at : at + 4], "big") for at in (8, 12))
            text += f", {received} received, {replied} sent before"
    return text


def exchange(sender, sequence, what, tail):
    sender.sendto(request(sequence, tail), REFLECTOR)
    print(f"  request {sequence}, {what:<20}{told_of(sender.recv(65_536))}")


def stampctl(*words):
    """A command as an operator types it, with what it prints."""
    print(f"\n$ stampctl {' '.join(words)}", flush=True)
    subprocess.run([sys.executable, "-B", TOP / "stampctl", "-s", "%s:%d" % OPERATOR, *words], check=True)


def wait_for(daemon, seconds):
    """Whether an operator can connect, before the daemon ends."""
    until = time.monotonic() + seconds
    while daemon.poll() is None and time.monotonic() < until:
        with socket.socket() as one:
            if one.connect_ex(OPERATOR) == 0:
                return True
        time.sleep(0.05)
    return False


def talk(sender):
    print(f"\nA session sender at {SENDER[0]}:{SENDER[1]}, SSID {SSID}, sends to {REFLECTOR[0]}:{REFLECTOR[1]}:\n")
    for place, (what, tail) in enumerate(DATAGRAMS):
        exchange(sender, 100 + place, what, tail)
    stampctl("list")
    stampctl("count", *SESSION)
    stampctl("config", "precise", "--format", "ptp", "--offset", str(LEAP_SECONDS))
    stampctl("set", *SESSION, "precise")
    print("\nThe session goes on under its new configuration:\n")
    exchange(sender, 100 + len(DATAGRAMS), *DATAGRAMS[0])
    stampctl("quit")


@contextlib.contextmanager
def started(words, **streams):
    """A program that is ended with this, at whichever moment a signal comes: by one that it may act on, or else at once."""
    signals = (signal.SIGINT, signal.SIGTERM, signal.SIGHUP)
    unblock = lambda: signal.pthread_sigmask(signal.SIG_UNBLOCK, signals)
    signal.pthread_sigmask(signal.SIG_BLOCK, signals)
    process = subprocess.Popen(words, preexec_fn=unblock, **streams)
    try:
        unblock()
        yield process
    finally:
        if process.poll() is None:
            process.terminate()
            try:
                process.wait(4 * PATIENCE)
            except subprocess.TimeoutExpired:
                process.kill()


def show(program, waiting, tried):
    """Shows a session with a daemon of the program. A tried one is compiled first, while which waiting is told."""
    print(f"$ stampd run {FILE.relative_to(TOP)} &", flush=True)
    streams = {"stdin": subprocess.DEVNULL, "stdout": subprocess.PIPE, "stderr": subprocess.PIPE if tried else None}
    try:
        with started([program, "run", FILE], text=True, **streams) as daemon:
            with waiting:
                serves = wait_for(daemon, COMPILATION if tried else PATIENCE)
            if not serves:
                daemon.terminate()
                print("The daemon doesn't serve.", *filter(None, daemon.communicate()), file=sys.stderr)
                return 1
            with socket.socket(socket.AF_INET, socket.SOCK_DGRAM) as sender:
                sender.settimeout(PATIENCE)
                sender.bind(SENDER)
                talk(sender)
            report, faults = daemon.communicate(timeout=6 * PATIENCE if tried else PATIENCE)
    except (OSError, subprocess.SubprocessError) as fault:
        print(f"demo: {fault}", file=sys.stderr)
        return 1
    print("\nThe daemon's report:\n\n" + report, end="", flush=True)
    if daemon.returncode and faults:
        print(faults, end="", file=sys.stderr)
    return daemon.returncode
