# SPDX-License-Identifier: Apache-2.0
"""What ends a command before its end. Each fault is one line, or a line each of several, and has its exit status."""


class Fault(Exception):
    """A fault that is told. The kinds below have their statuses."""

    status: int


class Refused(Fault):
    """The daemon refused a line, for a cause that it told."""

    status = 1


class Unreachable(Fault):
    """The daemon can't be reached, hangs up, or what answers is no daemon."""

    status = 3


class InVain(Fault):
    """What was to be waited for hasn't come, or can't be seen from here."""

    status = 4


class Unreadable(Fault):
    """A file can't be read."""

    status = 5


class FaultyFile(Fault):
    """A file isn't what the daemon would serve by."""

    status = 6


class NoPackage(Fault):
    """A package of Python that a command needs isn't installed. An old Python has this status as well."""

    status = 7


class Unwritable(Fault):
    """The standard output can't be written."""

    status = 8


class Unbound(Fault):
    """An address can't be listened at."""

    status = 9


class Several(Fault):
    """The faults of several servers, or of several lines. The status is the greatest of theirs."""

    def __init__(self, faults):
        super().__init__("\n".join(map(str, faults)))
        self.status = max(fault.status for fault in faults)


def raise_all(faults):
    """Raises what there is to raise: nothing, the one fault, or all of them as one."""
    if faults:
        raise faults[0] if len(faults) == 1 else Several(faults)


def cause_of(fault):
    """What the system says of an OSError, without its number."""
    return fault.strerror or str(fault) or type(fault).__name__
