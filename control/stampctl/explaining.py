# SPDX-License-Identifier: Apache-2.0
"""The command `explain`: why a daemon doesn't serve by a file, and what it will hardly be meant to do."""

import contextlib
import errno
import ipaddress
import os
import resource

from stampctl import system
from stampctl.conf_file import Finding, read, told
from stampctl.faults import FaultyFile, cause_of
from stampctl.operator_port import CONNECTIONS
from stampctl.output import tell
from stampctl.words import host_and_port

DESCRIPTORS = 5  # besides addresses and connections: streams, sets of sockets


def explain(options):
    """Prints all findings, a line each, or that there are none. A fault among them is told by the status."""
    octets, conf = read(options.file)
    findings = list(conf.findings)
    if not conf.faults():
        findings += [*hints(conf), *bindings(conf)]
    for line in told(options.file, octets, findings):
        tell(line)
    faults = sum(not found.is_hint for found in findings)
    if faults:
        raise FaultyFile(f"{options.file}: {faults} fault{'s' * (faults > 1)}")
    if not findings:
        tell(f"{options.file}: nothing is wrong here, and each address can be bound")


# ---- what is accepted and will hardly be meant


def address_of(text):
    return ipaddress.ip_address(host_and_port(text)[0])


def hints(conf):
    for place, text in enumerate(conf.locals):
        if address_of(text).is_unspecified:
            yield Finding(f"locals.{place}", f"{text} answers from an address that the system chooses; name each", True)
    for place, session, *_ in conf.sessions:
        yield from hints_of_session(f"sessions.{place}.peer", session, conf.locals[session.local])
    operator = conf.root.get("operator")
    if operator is None:
        yield Finding("operator", "is missing: nobody can list, change or end what runs, but by a signal", True)
    elif not address_of(operator).is_loopback:
        text = "asks for no password, and is reached from other machines unless a firewall keeps it"
        yield Finding("operator", text, True)


def hints_of_session(path, session, local):
    peer, own = address_of(session.peer), address_of(local)
    if peer.version != own.version:
        text = f"is of IPv{peer.version}, and local {session.local}, {local}, of IPv{own.version}: no datagram matches"
        if own.is_unspecified and own.version == 6:
            mapped = ipaddress.ip_address(f"::ffff:{peer}").exploded
            text += f', since a sender of IPv4 is "[{mapped}]" there'
        yield Finding(path, text, True)
    elif peer.version == 6 and peer.ipv4_mapped and not own.is_unspecified:
        yield Finding(path, "is an IPv4-mapped address, from which no datagram comes to an address of IPv6", True)
    elif peer.is_link_local and peer.version == 6:
        yield Finding(path, "is a link-local address: replies to it can't be sent without a scope", True)
    elif peer.is_unspecified or peer.is_multicast:
        yield Finding(path, "is an address from which no datagram comes", True)


# ---- addresses


def endpoints(conf):
    """Path, endpoint and kind of each address that the daemon binds, in its order."""
    yield from ((f"locals.{place}", text, "udp") for place, text in enumerate(conf.locals))
    yield from ((key, conf.root[key], "tcp") for key in ("control", "operator") if key in conf.root)


def bindings(conf):
    """What keeps each address from being bound while those before it are."""
    taken = {}
    wanted = list(endpoints(conf))
    limit = resource.getrlimit(resource.RLIMIT_NOFILE)[0]
    left = limit - len(wanted) - DESCRIPTORS
    if left < 1:
        yield Finding("locals", f"{len(wanted)} addresses want more open files than the limit here, {limit} (ulimit -n)")
        return
    if left < CONNECTIONS + 1:
        yield Finding("locals", f"the limit of open files here, {limit} (ulimit -n), leaves {left} for connections", True)
    with contextlib.ExitStack() as stack:
        for path, text, kind in wanted:
            try:
                stack.enter_context(system.bound(host_and_port(text), kind))
            except OSError as fault:
                yield Finding(path, f"{text} can't be bound: {why_unbound(fault, text, kind, taken)}")
            else:
                taken[path] = (text, kind)


def why_unbound(fault, text, kind, taken):
    host, port = host_and_port(text)
    address = ipaddress.ip_address(host)
    match fault.errno:
        case errno.EADDRINUSE:
            return why_in_use(address, port, kind, taken)
        case errno.EADDRNOTAVAIL:
            family = f"ipv{address.version}"
            return f"no interface has {address} now; net.{family}.ip_nonlocal_bind=1 lets it be bound before one has"
        case errno.EACCES if port < (first := system.first_free_port()):
            return f"ports below {first} want CAP_NET_BIND_SERVICE or net.ipv4.ip_unprivileged_port_start"
        case errno.EINVAL if address.is_link_local:
            return "it is a link-local address, and a file gives no scope"
        case errno.EAFNOSUPPORT:
            return f"there is no IPv{address.version} here"
    return cause_of(fault)


def why_in_use(address, port, kind, taken):
    for path, (other, other_kind) in taken.items():
        host, other_port = host_and_port(other)
        if (other_kind, other_port) == (kind, port) and system.overlaps(address, ipaddress.ip_address(host)):
            return f"{path} has it already" if ipaddress.ip_address(host) == address else f"{path}, {other}, takes it in"
    process = system.holder_of(address, port, kind)
    if process is None or process == os.getpid():
        return "it is in use by a process that can't be seen from here"
    return f"it is in use by process {process} ({system.command_of(process)})"
