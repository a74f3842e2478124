# SPDX-License-Identifier: Apache-2.0
"""What Linux tells of sockets and processes of this machine: /proc, read under `self` alone, which a unit's
`ProcSubset=pid` leaves. Where it tells nothing, as of another user's processes, nothing is found."""

import ipaddress
import os
import pathlib
import select
import socket
import sys
from typing import NamedTuple

PROC = pathlib.Path("/proc")
TABLES = ("tcp", "tcp6", "udp", "udp6")
LISTENS = "0A"


class Socket(NamedTuple):
    """A row of a table of sockets. Addresses are `ipaddress` objects; an IPv4-mapped one is one of IPv4."""

    local: tuple
    remote: tuple
    state: str
    queued: int
    inode: int
    drops: int


def address_of(text):
    """An address and a port of a table: words of 32 bits in the machine's own order, then the port."""
    address, port = text.split(":")
    words = (bytes.fromhex(address[at : at + 8]) for at in range(0, len(address), 8))
    octets = b"".join(word[::-1] if sys.byteorder == "little" else word for word in words)
    return plain(ipaddress.ip_address(octets)), int(port, 16)


def plain(address):
    return getattr(address, "ipv4_mapped", None) or address


def sockets(kind):
    """The sockets of this network namespace; `kind` is `tcp`, `tcp6`, `udp` or `udp6`."""
    try:
        lines = (PROC / "self" / "net" / kind).read_text().splitlines()[1:]
    except OSError:
        return
    for line in lines:
        cells = line.split()
        queued = int(cells[4].partition(":")[2], 16)
        drops = int(cells[12]) if kind.startswith("udp") else 0
        yield Socket(address_of(cells[1]), address_of(cells[2]), cells[3], queued, int(cells[9]), drops)


def name_of(stream_name):
    """The address and the port of `getsockname` and `getpeername`."""
    return plain(ipaddress.ip_address(stream_name[0].partition("%")[0])), stream_name[1]


def process_of_inode(inode):
    """The number of a process that holds a socket; none where it can't be seen."""
    target = f"socket:[{inode}]"
    for folder in PROC.iterdir():
        if folder.name.isdigit():
            try:
                if any(os.readlink(link) == target for link in (folder / "fd").iterdir()):
                    return int(folder.name)
            except OSError:
                continue
    return None


def process_behind(stream):
    """The number of the process at the other end of a connection that has been answered; none where it can't be seen."""
    ends = name_of(stream.getpeername()), name_of(stream.getsockname())
    for kind in ("tcp", "tcp6"):
        for each in sockets(kind):
            if (each.local, each.remote) == ends and each.inode:
                return process_of_inode(each.inode)
    return None


def overlaps(one, other):
    """Whether two addresses can't be bound at one port. `::` takes IPv4 as well."""
    if one.version != other.version:
        return (one if one.version == 6 else other).is_unspecified
    return one == other or one.is_unspecified or other.is_unspecified


def holder_of(address, port, kind):
    """The number of the process that holds an address; `kind` is `udp` or `tcp`. None where it can't be seen."""
    for table in (kind, f"{kind}6"):
        for each in sockets(table):
            if each.local[1] == port and overlaps(each.local[0], address) and (kind == "udp" or each.state == LISTENS):
                return process_of_inode(each.inode)
    return None


def command_of(process):
    try:
        return (PROC / str(process) / "comm").read_text().strip()
    except OSError:
        return "?"


def first_free_port():
    """The first port for which no capability is wanted."""
    try:
        return int((PROC / "sys/net/ipv4/ip_unprivileged_port_start").read_text())
    except (OSError, ValueError):
        return 1024


class Process:
    """A process until it ends, by a descriptor that no later process of its number can take over."""

    def __init__(self, number):
        """A ProcessLookupError where there is none of that number."""
        self.number = number
        self.descriptor = os.pidfd_open(number)

    def has_ended(self, seconds):
        """Whether it ends within this time."""
        poll = select.poll()
        poll.register(self.descriptor, select.POLLIN)
        return bool(poll.poll(seconds * 1000))


def bound(endpoint, kind):
    """A socket of the family of an endpoint (host, port) that is bound as the daemon would bind it. An OSError."""
    host, port = endpoint
    family = socket.AF_INET6 if ":" in host else socket.AF_INET
    made = socket.socket(family, socket.SOCK_DGRAM if kind == "udp" else socket.SOCK_STREAM)
    try:
        if kind == "tcp":
            made.setsockopt(socket.SOL_SOCKET, socket.SO_REUSEADDR, 1)
        made.bind((host, port))
        if kind == "tcp":
            made.listen(1)
    except OSError:
        made.close()
        raise
    return made
