# SPDX-License-Identifier: Apache-2.0
"""A talk of TWAMP-Control with a daemon, as a capture, and what each of its messages must be dissected as."""

import struct
import tempfile
import time
from typing import NamedTuple

import captures
from daemon import HOST, Daemon, free_ports, sender, toml, written

CLIENT_PORT, SERVER_PORT = 50_000, 862  # of the capture; the daemon's own are free ones
SYN, ACK, PUSH = 0x02, 0x10, 0x08
MODES = 97  # open, with reflected octets and symmetrical size
TIMEOUT = (2).to_bytes(4, "big") + bytes(4)
REFLECTED = b"\x12\x34"


class Message(NamedTuple):
    moment: int
    from_server: bool
    octets: bytes


def take(stream, count):
    found = b""
    while len(found) < count:
        piece = stream.recv(count - len(found))
        assert piece, f"the connection ended after {len(found)} of {count} octets"
        found += piece
    return found


def request(sender_port, local):
    """A Request-TW-Session over IPv4, its addresses being those of the connection (RFC 5357, section 3.5)."""
    ports = struct.pack(">HH", sender_port, local)
    head = bytes([5, 4]) + bytes(10) + ports + bytes(32 + 16 + 4 + 8) + TIMEOUT + bytes(4) + REFLECTED + bytes(2)
    return head.ljust(112, b"\0")


def talk(program):
    """The messages of a client that has a session reserved, started and stopped, and of one whose request is refused."""
    local, control, operator = free_ports(3)
    with tempfile.TemporaryDirectory() as folder, sender() as made:
        ends = toml(locals=[f"{HOST}:{local}"], control=f"{HOST}:{control}", operator=f"{HOST}:{operator}", twamp="test")
        with Daemon(program, written(folder, ends + "[configs.test]\n"), operator) as daemon:
            client = daemon.connection(control)
            messages = []

            def note(from_server, octets):
                messages.append(Message(time.time_ns(), from_server, octets))

            def say(octets, reply):
                client.sendall(octets)
                note(False, octets)
                if reply:
                    note(True, take(client, reply))

            note(True, take(client, 64))
            say(MODES.to_bytes(4, "big") + bytes(160), 48)
            good = request(made.getsockname()[1], local)
            say(good, 48)
            say(good[:2] + b"\1" + good[3:], 48)
            say(bytes([2]) + bytes(31), 32)
            say(bytes([3]) + bytes(6) + bytes([1]) + bytes(24), 0)
            client.close()
            daemon.quit()
    return messages


# ---- the capture


def capture_of(messages):
    """The talk in TCP segments, each of one message."""
    marks = {False: 1000, True: 9000}  # the next sequence number of the client, and of the server
    begun = messages[0].moment - 1000
    packets = [(begun, segment(False, SYN, marks, b"")), (begun + 1, segment(True, SYN | ACK, marks, b""))]
    packets.append((begun + 2, segment(False, ACK, marks, b"")))
    packets += [(each.moment, segment(each.from_server, PUSH | ACK, marks, each.octets)) for each in messages]
    return captures.write_packets(packets)


def segment(from_server, flags, marks, octets):
    ports = (SERVER_PORT, CLIENT_PORT) if from_server else (CLIENT_PORT, SERVER_PORT)
    head = struct.pack(">HHIIBBHHH", *ports, marks[from_server], marks[not from_server], 5 << 4, flags, 65_535, 0, 0)
    marks[from_server] += len(octets) or bool(flags & SYN)
    address = b"\x7f\0\0\1"
    pseudo = address + address + struct.pack(">HH", 6, len(head) + len(octets))
    summed = struct.pack(">H", captures.checksum(pseudo + head + octets))
    tcp = head[:16] + summed + head[18:] + octets
    ip = struct.pack(">BBHIBBH", 0x45, 0, 20 + len(tcp), 0, 64, 6, 0) + address + address
    return ip[:10] + struct.pack(">H", captures.checksum(ip)) + ip[12:] + tcp


# ---- what a dissector must say of each message, as docs/FORMATS.md places its fields


def number(octets):
    return str(int.from_bytes(octets, "big"))


def address(octets):
    return ".".join(map(str, octets))


def greeting(octets):
    fields = {"unused": octets[:12].hex(), "challenge": octets[16:32].hex(), "salt": octets[32:48].hex()}
    return fields | {"modes": str(MODES), "count": "1024", "mbz1": octets[52:].hex()}


def set_up(octets):
    # The dissector shows 40 of the 80 octets of the KeyID.
    return {"mode": number(octets[:4]), "keyid": octets[4:44].hex()}


def server_start(octets):
    return {"accept": "0", "iv": octets[16:32].hex(), "server_uptime": octets[32:40]}


def asked(octets):
    fields = {"command": "5", "ipvn": number(octets[1:2]), "conf_sender": number(octets[2:3])}
    fields |= {"conf_receiver": number(octets[3:4]), "number_of_schedule_slots": number(octets[4:8])}
    fields |= {"number_of_packets": number(octets[8:12]), "sender_port": number(octets[12:14])}
    fields |= {"receiver_port": number(octets[14:16]), "sender_ipv4": address(octets[16:20])}
    fields |= {"receiver_ipv4": address(octets[32:36]), "session_id": octets[48:64].hex()}
    return fields | {"padding_length": number(octets[64:68]), "timeout": "2.000000000", "type-p": "0x00000000"}


def accepted(octets):
    return {"accept": "0", "receiver_port": number(octets[2:4]), "session_id": octets[4:20].hex()}


def refused(octets):
    return {"accept": "3", "receiver_port": "0", "session_id": "00" * 16}


def started(octets):
    return {"command": "2"}


def start_acknowledged(octets):
    return {"accept": "0", "mbz1": "00" * 15}


def stopped(octets):
    return {"command": "3", "accept": "0", "numsessions": "1"}


# In the order of the talk.
DISSECTED = (greeting, set_up, server_start, asked, accepted, asked, refused, started, start_acknowledged, stopped)
