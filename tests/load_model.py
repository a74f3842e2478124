# SPDX-License-Identifier: Apache-2.0
"""What `gen SEED COUNT` writes, from docs/FORMATS.md: its records one after the other, and the model of a replay."""

from records import config, record
from reflector_model import Octets, Table

STEP = 6364136223846793005
INCREMENT = 1442695040888963407


def peer(number):
    return b"\4\x0a\0\0" + bytes([number + 1]) + bytes(12) + (5000).to_bytes(2, "big")


def openings():
    for number in range(8):
        yield bytes(2) + peer(number) + b"\0" + number.to_bytes(2, "big") + bytes(3) + config()


def datagrams(seed, count):
    state = seed
    for sequence in range(count):
        state = (state * STEP + INCREMENT) % 2**64
        sender, padding = (state >> 33) % 10, (state >> 40) % 64
        packet = sequence.to_bytes(4, "big") + bytes(8) + b"\0\1" + sender.to_bytes(2, "big") + bytes(28)
        packet += b"\x80\1" + padding.to_bytes(2, "big") + bytes(padding)
        moments = (sequence * 1_000_000).to_bytes(8, "big") + (sequence * 1_000_000 + 1000).to_bytes(8, "big")
        yield bytes(2) + peer(sender) + bytes(2) + moments + packet


def stream(seed, count):
    """The load as a replay stream."""
    return b"".join([record(1, body) for body in openings()] + [record(4, body) for body in datagrams(seed, count)])


def report(seed, count):
    table = Table()
    answers = [table.open(Octets(body)) for body in openings()]
    answers += [table.datagram(Octets(body)) for body in datagrams(seed, count)]
    codes = [answer[5] for answer in answers if answer[0] == 0x84]
    sent, without_session, octets = codes.count(0), codes.count(1), sum(map(len, answers))
    return f"datagrams {count}\nsent {sent}\nnosession {without_session}\noctets {octets}\n".encode()
