# SPDX-License-Identifier: Apache-2.0
"""Records of a replay, made of a configuration file and of captured datagrams, and its answers. docs/FORMATS.md has both."""

import hashlib
import pathlib
import tomllib
from typing import NamedTuple

from captures import Endpoint

MODES = {"plain": 0, "auth": 1, "twamp": 2}
SSID_PLACES = {0: 14, 1: 26}  # in a datagram, by mode
MOST_ADDRESSES = 16
MOST_SESSIONS = 1024
MOST_OCTETS = 2**30
OPEN, DATAGRAM, LOCALS, REFLECTED = 1, 4, 5, 0x84


class Session(NamedTuple):
    local: int
    peer: Endpoint
    mode: int
    ssid: int
    config: bytes  # 76 octets
    symmetrical: bool = False
    reflect: int = 0


# ---- a configuration file


def endpoint_of(text):
    """An endpoint as a configuration file writes it."""
    address, _, port = text.rpartition(":")
    if address.startswith("["):
        octets = bytes.fromhex(address[1:-1].replace(":", ""))
    else:
        octets = bytes(map(int, address.split(".")))
    return Endpoint(octets, int(port))


def config_octets(table):
    """A configuration of the file as the 76 octets of a record."""
    key = bytes.fromhex(table["key"]) if "key" in table else None
    block = b"" if key is None else hashlib.sha256(key).digest() if len(key) > 64 else key
    flags = (
        table.get("stateful", True) | (table.get("format", "ntp") == "ptp") << 1
        | (key is not None) << 2 | table.get("synced", False) << 3
    )
    head = bytes([flags, table.get("offset", 0), table.get("scale", 0), table.get("multiplier", 1)])
    tlvs = sum(1 << kind for kind in table.get("tlvs", [3, 5]))
    return head + bytes.fromhex(table.get("info", "00000000")) + tlvs.to_bytes(4, "big") + block.ljust(64, b"\0")


def from_file(path):
    """The local addresses and the sessions of a configuration file that the program accepts."""
    root = tomllib.loads(pathlib.Path(path).read_text())
    configs = {name: config_octets(table) for name, table in root["configs"].items()}
    sessions = [
        Session(
            s.get("local", 0), endpoint_of(s["peer"]), MODES[s.get("mode", "plain")], s.get("ssid", 0),
            configs[s["config"]], s.get("symmetrical", False), s.get("reflect", 0),
        )
        for s in root.get("sessions", [])
    ]
    return list(map(endpoint_of, root["locals"])), sessions


def local_of(addresses, destination):
    """The local number at which a datagram to an endpoint arrives: that of its address, or of a wildcard. Else none."""
    for address in (destination.address, bytes(len(destination.address))):
        if (local := Endpoint(address, destination.port)) in addresses:
            return addresses.index(local)
    return None


def ssid_of(mode, octets):
    """The SSID that a datagram has in a session of this mode: 0 in mode twamp, and none where it is too short for one."""
    if mode not in SSID_PLACES:
        return 0
    place = SSID_PLACES[mode]
    return int.from_bytes(octets[place : place + 2], "big") if len(octets) >= place + 2 else None


# ---- records


def record(tag, body):
    return bytes([tag]) + len(body).to_bytes(4, "big") + body


def endpoint_octets(endpoint):
    family = b"\4" if len(endpoint.address) == 4 else b"\6"
    return family + endpoint.address.ljust(16, b"\0") + endpoint.port.to_bytes(2, "big")


def opening(session):
    ends = session.local.to_bytes(2, "big") + endpoint_octets(session.peer)
    extra = bytes([session.symmetrical]) + session.reflect.to_bytes(2, "big")
    return record(OPEN, ends + bytes([session.mode]) + session.ssid.to_bytes(2, "big") + extra + session.config)


def listing(addresses):
    return record(LOCALS, bytes([len(addresses)]) + b"".join(map(endpoint_octets, addresses)))


def request(local, datagram, delay):
    """A datagram whose reply leaves so many nanoseconds after it came."""
    moments = (datagram.moment, datagram.moment + delay)
    fields = local.to_bytes(2, "big") + endpoint_octets(datagram.source) + bytes([1, datagram.ttl])
    return record(DATAGRAM, fields + b"".join(moment.to_bytes(8, "big") for moment in moments) + datagram.octets)


def parts(octets):
    """The tag and the body of each record or answer."""
    at = 0
    while at + 5 <= len(octets):
        length = int.from_bytes(octets[at + 1 : at + 5], "big")
        yield octets[at], octets[at + 5 : at + 5 + length]
        at += 5 + length
