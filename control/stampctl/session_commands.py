# SPDX-License-Identifier: Apache-2.0
"""The commands that spell one line of an operator, and print its answer."""

import contextlib

from stampctl.configuration import Configuration
from stampctl.faults import Unreachable, raise_all
from stampctl.operator_port import Operator, Session, ask_each
from stampctl.output import hint, tell, tell_table
from stampctl.words import is_ipv6

HEADS = ("LOCAL", "PEER", "MODE", "SSID", "DRAWS")


def session_of(options):
    return Session(options.local, options.peer, options.mode, options.ssid)


def list_sessions(options):
    """A table. That of several servers has a column more, and leaves out those that can't be reached."""
    answers, faults = ask_each(options.servers, Operator.sessions)
    if len(options.servers) == 1:
        raise_all(faults)
    several = len(options.servers) > 1
    rows = [("SERVER", *HEADS) if several else HEADS]
    for server, sessions in answers:
        rows += [(*(server,) * several, *session, draws) for session, draws in sessions.items()]
    tell_table(rows)
    raise_all(faults)


def count(options):
    """A number. Of several servers it is a table with the sum, without those that refuse or can't be reached."""
    line = f"count {session_of(options)}"
    answers, faults = ask_each(options.servers, lambda operator: operator.number(line))
    if len(options.servers) == 1:
        raise_all(faults)
        tell(str(answers[0][1]))
        return
    tell_table([("SERVER", "DRAWS"), *answers, ("SUM", sum(number for _, number in answers))])
    raise_all(faults)


def close(options):
    with Operator(options.server) as operator:
        tell(str(operator.number(f"close {session_of(options)}")))


def open_session(options):
    """Nothing is printed. A session that can hardly match is hinted at, since the daemon opens it all the same."""
    session = session_of(options)
    with Operator(options.server) as operator:
        operator.ask(f"open {session} {options.name} {options.wait}")
        with contextlib.suppress(Unreachable):
            hint_at_family(session, operator.sessions())


def hint_at_family(session, sessions):
    """The daemon doesn't tell of which family an address of its own is; the other sessions there let it be guessed."""
    others = {is_ipv6(other.peer) for other in sessions if other.local == session.local and other != session}
    own = is_ipv6(session.peer)
    if others == {not own}:
        told = ("IPv4", "IPv6")
        text = f"the other sessions of local {session.local} are of {told[not own]}: where its address is,"
        hint(f"{text} no datagram matches this one of {told[own]}")


def set_session(options):
    with Operator(options.server) as operator:
        operator.ask(f"set {session_of(options)} {options.name}")


def config(options):
    octets = Configuration(
        stateful=not options.stateless,
        **{name: getattr(options, name) for name in Configuration._fields if name != "stateful"},
    ).octets()
    with Operator(options.server) as operator:
        operator.ask(f"config {options.name} {octets.hex()}")
