# SPDX-License-Identifier: Apache-2.0
"""Replays a stream and prints each record beside its answer, with the fields named."""

import itertools
import sys
from subprocess import PIPE

import session

MODES = ("plain", "authenticated", "TWAMP")
OPENINGS = ("opened", "duplicate", "clash of modes", "full", "rows full", "no key")
SETTINGS = {0: "set", 4: "rows full", 5: "no key", 6: "no such session"}
SILENT = {1: "no session", 2: "short", 3: "bad HMAC", 7: "none was asked for"}
ENDS = {
    0: "all of the input is records", 2: "the words are no command", 4: "no memory",
    6: "the input leaves the grammar", 7: "a read failed", 8: "a write failed",
}
WIDTH = 62

# Fields of each packet: name and octets. A name of None stands for octets that must be zero.
SENDER = (("sequence", 4), ("timestamp", 8), ("error", 2))
PLAIN_REQUEST = SENDER + (("SSID", 2), (None, 28))
PLAIN_REPLY = SENDER + (
    ("SSID", 2), ("received", 8), ("sender seq.", 4), ("sender time", 8), ("sender error", 2),
    (None, 2), ("sender TTL", 1), (None, 3),
)
AUTHENTICATED_REQUEST = (
    ("sequence", 4), (None, 12), ("timestamp", 8), ("error", 2), ("SSID", 2), (None, 68),
    ("HMAC", 16),
)
AUTHENTICATED_REPLY = (
    ("sequence", 4), (None, 12), ("timestamp", 8), ("error", 2), ("SSID", 2), (None, 4),
    ("received", 8), (None, 8), ("sender seq.", 4), (None, 12), ("sender time", 8),
    ("sender error", 2), (None, 6), ("sender TTL", 1), (None, 15), ("HMAC", 16),
)
TWAMP_REPLY = SENDER + (
    (None, 2), ("received", 8), ("sender seq.", 4), ("sender time", 8), ("sender error", 2),
    (None, 2), ("sender TTL", 1),
)
REQUESTS = (PLAIN_REQUEST, AUTHENTICATED_REQUEST, SENDER)
REPLIES = (PLAIN_REPLY, AUTHENTICATED_REPLY, TWAMP_REPLY)


def number(octets):
    return int.from_bytes(octets, "big")


def records(stream):
    """The records of a stream, as tag and body."""
    at = 0
    while at + 5 <= len(stream):
        length = number(stream[at + 1 : at + 5])
        yield stream[at], stream[at + 5 : at + 5 + length]
        at += 5 + length


def endpoint(octets):
    if octets[0] == 4:
        address = ".".join(str(octet) for octet in octets[1:5])
    else:
        address = "[" + octets[1:17].hex(":", 2) + "]"
    return f"{address}:{number(octets[17:19])}"


def value(octets):
    """Hexadecimal digits, cut where they are many."""
    return octets.hex() if len(octets) <= 20 else f"{octets[:16].hex()}.. ({len(octets)} octets)"


def tlvs(tail):
    at = 0
    while len(tail) - at >= 4 and at + 4 + number(tail[at + 2 : at + 4]) <= len(tail):
        length = number(tail[at + 2 : at + 4])
        flags = "".join(name for name, bit in (("U", 0x80), ("M", 0x40), ("I", 0x20)) if tail[at] & bit)
        of = value(tail[at + 4 : at + 4 + length])
        yield f"{'TLV':<13}type {tail[at + 1]}, flags {flags or 'none'}{': ' + of if of else ''}"
        at += 4 + length
    if at < len(tail):
        yield f"{'rest':<13}{value(tail[at:])}"


def packet(octets, fields, mode):
    """A line a field."""
    at = 0
    for name, length in fields:
        if at >= len(octets):
            return
        if name:
            yield f"{name:<13}{octets[at : at + length].hex()}"
        at += length
    if mode == MODES.index("TWAMP"):
        if octets[at:]:
            yield f"{'padding':<13}{value(octets[at:])}"
    else:
        yield from tlvs(octets[at:])


def moment(octets):
    return f"{number(octets) / 1e9:.9f} s"


class Sessions:
    """The modes of the sessions that were opened, by their ends."""

    def __init__(self):
        self.modes = {}

    def open_lines(self, body, answer):
        mode, flags = body[21], body[27]
        if answer[:1] == b"\0":
            self.modes[body[:21]] = mode
        told = ["stateful" if flags & 1 else "stateless", "PTP" if flags & 2 else "NTP"]
        told += ["with a key"] if flags & 4 else []
        given = [
            f"OPEN {MODES[mode]}, SSID {number(body[22:24])}",
            f"local {number(body[:2])}, peer {endpoint(body[2:21])}",
            ", ".join(told) + (f", {number(body[25:27])} octets to reflect" if mode == 2 else ""),
        ]
        return given, [OPENINGS[answer[0]]]

    def set_lines(self, body, answer):
        given = [
            f"SET {MODES[body[21]]}, SSID {number(body[22:24])}",
            f"local {number(body[:2])}, peer {endpoint(body[2:21])}",
            f"multiplier {body[27]}" + (", with a key" if body[24] & 4 else ""),
        ]
        return given, [SETTINGS[answer[0]]]

    def close_lines(self, body, answer):
        given = [
            f"CLOSE {MODES[body[21]]}, SSID {number(body[22:24])}",
            f"local {number(body[:2])}, peer {endpoint(body[2:21])}",
        ]
        return given, ["no such session" if answer[0] else f"closed, {number(answer[1:])} numbers drawn"]

    def locals_lines(self, body, answer):
        return ["LOCALS", *(endpoint(body[at : at + 19]) for at in range(1, len(body), 19))], ["listed"]

    def datagram_lines(self, body, answer):
        mode = self.modes.get(body[:21], 0)
        octets = body[39:]
        given = [
            f"DATAGRAM of {len(octets)} octets",
            f"local {number(body[:2])}, peer {endpoint(body[2:21])}",
            f"TTL {body[22] if body[21] else 'not told'}, came at {moment(body[23:31])}",
            *packet(octets, REQUESTS[mode], mode),
        ]
        if answer[0]:
            return given, [f"no reply: {SILENT[answer[0]]}"]
        reply = answer[26:]
        told = [
            f"REPLY of {len(reply)} octets",
            f"local {number(answer[1:3])}, to {endpoint(answer[3:22])}",
            f"number {number(answer[22:26])} drawn, sent at {moment(body[31:39])}",
            *packet(reply, REPLIES[mode], mode),
        ]
        return given, told


def beside(left, right):
    for place in range(max(len(left), len(right))):
        first = left[place] if place < len(left) else ""
        second = right[place] if place < len(right) else ""
        print(f"  {first:<{WIDTH}}{second}".rstrip())
    print()


def show(program, path, waiting, tried):
    """Shows a replay by the program. A tried one is compiled first, while which waiting is told."""
    try:
        with open(path, "rb") as file:
            stream = file.read()
        with session.started([program, "replay"], stdin=PIPE, stdout=PIPE, stderr=PIPE) as process, waiting:
            answers, faults = process.communicate(stream)
    except OSError as fault:
        print(f"{fault.filename}: {fault.strerror}", file=sys.stderr)
        return 1
    if tried and process.returncode == 1:
        print(faults.decode(errors="replace"), end="", file=sys.stderr)
        return 1
    sessions = Sessions()
    given = itertools.chain(records(stream), itertools.repeat((None, b"")))
    for (told, answer), (tag, body) in zip(records(answers), given):
        if told == 0xFF:
            print(f"  the stream leaves its grammar at octet {number(answer)}\n")
        else:
            lines = {
                1: sessions.open_lines, 2: sessions.set_lines, 3: sessions.close_lines,
                4: sessions.datagram_lines, 5: sessions.locals_lines,
            }
            beside(*lines[tag](body, answer))
    end = ENDS.get(process.returncode, "the program was stopped")
    print(f"{len(answers)} octets of answers, status {process.returncode}: {end}", flush=True)
    return process.returncode
