# SPDX-License-Identifier: Apache-2.0
"""What is measured of a daemon: whether it is up, its sessions, and the sockets of its addresses."""

import ipaddress
import sys
from typing import NamedTuple

from stampctl import conf_file, system
from stampctl.faults import Unreachable
from stampctl.operator_port import Operator
from stampctl.output import tell
from stampctl.words import host_and_port


class Family(NamedTuple):
    """A metric: `gauge` or `counter`, the names of its labels, and its samples, each labels' values and a number."""

    name: str
    kind: str
    help: str
    labels: tuple
    samples: list


def families(server, addresses):
    """All metrics of a daemon, and of these addresses where their sockets are of this machine. The second value is why it
    isn't up; none where it is."""
    cause, sessions = None, None
    try:
        with Operator(server) as operator:
            sessions = operator.sessions()
    except Unreachable as fault:
        cause = str(fault)
    found = [Family("stampd_up", "gauge", "Whether the daemon answers its operator.", (), [((), int(cause is None))])]
    if sessions is not None:
        found += families_of_sessions(sessions)
    if addresses:
        found += families_of_sockets(addresses)
    return found, cause


def families_of_sessions(sessions):
    draws = [(tuple(map(str, session)), number) for session, number in sessions.items()]
    labels = ("local", "peer", "mode", "ssid")
    yield Family("stampd_sessions", "gauge", "Sessions that are open.", (), [((), len(sessions))])
    told = "Numbers that a session has drawn, modulo 2^32."
    yield Family("stampd_session_draws_total", "counter", told, labels, draws)


def families_of_sockets(addresses):
    """A socket is one of this machine that has the address, whoever holds it."""
    there = {each.local: each for kind in ("udp", "udp6") for each in system.sockets(kind)}
    found = []
    for place, text in enumerate(addresses):
        host, port = host_and_port(text)
        if each := there.get((system.plain(ipaddress.ip_address(host)), port)):
            found.append(((str(place), text), each))
    labels = ("local", "address")
    queued = [(values, each.queued) for values, each in found]
    yield Family("stampd_socket_queued_bytes", "gauge", "Octets that wait in a receive buffer.", labels, queued)
    drops = [(values, each.drops) for values, each in found]
    told = "Datagrams for which a receive buffer had no room."
    yield Family("stampd_socket_drops_total", "counter", told, labels, drops)


def addresses_of(options):
    return conf_file.served(options.file).locals if options.file else []


def metrics(options):
    """Prometheus' text format. A daemon that isn't up is a value like another, and its cause is told besides."""
    found, cause = families(options.server, addresses_of(options))
    if cause:
        print(f"stampctl: {cause}", file=sys.stderr)
    for name, kind, help_text, labels, samples in found:
        lines = [f"# HELP {name} {help_text}", f"# TYPE {name} {kind}"]
        for values, number in samples:
            told = ",".join(f'{label}="{value}"' for label, value in zip(labels, values))
            lines.append(f"{name}{{{told}}} {number}" if told else f"{name} {number}")
        tell("\n".join(lines))
