# SPDX-License-Identifier: Apache-2.0
"""Operate a running stampd over its operator's port.

PEER is an address and a port, as 192.0.2.1:5000 or [2001:db8::1]:5000; MODE is plain, auth or twamp. SERVER is the
`operator` of the configuration file: an address or the name of a host, and a port. Without -s it is what STAMPCTL_SERVER
says, or 127.0.0.1:8620. stampctl(1) has the exit statuses.
"""

import argparse
import os
import sys

from stampctl import VERSION, words
from stampctl.applying import apply
from stampctl.ending import quit_daemon, wait
from stampctl.explaining import explain
from stampctl.exporting import export
from stampctl.faults import Fault
from stampctl.metrics import metrics
from stampctl.output import tell
from stampctl.session_commands import close, config, count, list_sessions, open_session, set_session
from stampctl.watching import watch

DEFAULT_SERVER = "127.0.0.1:8620"
DEFAULT_LISTEN = "127.0.0.1:9862"
WAIT = 10
INTERRUPTED = 130
POSITIVE = words.number(1, 2**31 - 1)
FOR_SEVERAL = (list_sessions, count)


class Options(argparse.Namespace):
    """The words of a command line."""

    @property
    def server(self):
        return self.servers[0]

    def server_or(self, other):
        """The server that is named, or the other one where none is and there is another."""
        return self.server if self.is_named or other is None else other


class OneLine(argparse.ArgumentParser):
    """A parser that tells a faulty word in one line."""

    def error(self, message):
        self.exit(2, f"{self.prog}: {message}; {self.prog} --help has the words\n")


class Parser:
    """The commands with their words."""

    def __init__(self):
        self.parser = OneLine(prog="stampctl", description=__doc__, formatter_class=argparse.RawDescriptionHelpFormatter)
        told = "the daemon; list and count take several"
        self.parser.add_argument(
            "-s", "--server", dest="named", metavar="SERVER", type=words.server, action="append", help=told
        )
        self.parser.add_argument("--version", action="version", version=f"stampctl {VERSION}")
        self.commands = self.parser.add_subparsers(required=True, metavar="COMMAND")
        self.add_session_commands()
        self.add_config()
        self.add_daemon_commands()
        self.add_file_commands()

    def add(self, name, run, told):
        added = self.commands.add_parser(name, help=told, description=f"{told[0].upper()}{told[1:]}.")
        added.set_defaults(run=run)
        return added

    def add_session_commands(self):
        self.add("list", list_sessions, "all open sessions")
        for name, run, told in (
            ("count", count, "how many numbers a session has drawn"),
            ("open", open_session, "opens a session"),
            ("set", set_session, "gives a session another configuration"),
            ("close", close, "ends a session, and prints its count"),
        ):
            added = self.add(name, run, told)
            added.add_argument("local", type=words.number(0, 65_535))
            added.add_argument("peer", type=words.endpoint)
            added.add_argument("mode", choices=words.MODES)
            added.add_argument("ssid", type=words.number(0, 65_535))
            if name in ("open", "set"):
                added.add_argument("name", type=words.name)
            if name == "open":
                told = "seconds without a datagram after which it ends; 0 for never"
                added.add_argument("wait", type=words.number(0, 31_536_000), nargs="?", default=0, help=told)

    def add_config(self):
        added = self.add("config", config, "gives a configuration a name")
        added.add_argument("name", type=words.name)
        added.add_argument("--stateless", action="store_true")
        added.add_argument("--format", choices=("ntp", "ptp"), default="ntp")
        added.add_argument("--offset", type=words.number(0, 255), default=0)
        added.add_argument("--synced", action="store_true")
        added.add_argument("--scale", type=words.number(0, 63), default=0)
        added.add_argument("--multiplier", type=words.number(1, 255), default=1)
        added.add_argument("--key", type=words.octets(1, 256))
        added.add_argument("--info", type=words.octets(4, 4), default=bytes(4))
        added.add_argument("--tlvs", type=words.tlv_types, default=[3, 5])

    def add_daemon_commands(self):
        added = self.add("wait", wait, "until the daemon answers")
        added.add_argument("seconds", type=POSITIVE, help="how long at most")
        added.add_argument("--pid", type=POSITIVE, help="the daemon's process: no other will do, and its end ends the wait")
        added = self.add("quit", quit_daemon, "ends the daemon, which then writes its report")
        told = f"until its process has ended, at most so many seconds ({WAIT} where none are given)"
        added.add_argument("--wait", type=POSITIVE, nargs="?", const=WAIT, metavar="SECONDS", help=told)
        added.add_argument("--pid", type=POSITIVE, help="the daemon's process: no other is ended")
        added = self.add("watch", watch, "the sessions again each second, the busiest first")
        added.add_argument("--seconds", type=POSITIVE, help="how long; else until it is interrupted")

    def add_file_commands(self):
        of_daemon = "the daemon's configuration file, of whose addresses the sockets are told too"
        self.add("metrics", metrics, "counts in Prometheus' text format").add_argument("--file", help=of_daemon)
        added = self.add("export", export, "the same over HTTP")
        told = f"where it is served; else {DEFAULT_LISTEN}"
        added.add_argument("--listen", type=words.server, default=DEFAULT_LISTEN, metavar="ADDRESS", help=told)
        added.add_argument("--file", help=of_daemon)
        told = "what is wrong with a configuration file, and which of its addresses can't be bound"
        self.add("explain", explain, told).add_argument("file")
        added = self.add("apply", apply, "brings the daemon to the sessions of a configuration file")
        added.add_argument("file")
        added.add_argument("--dry-run", action="store_true", help="prints what would be sent, and changes nothing")
        self.add("help", self.help, "this text, or that of a command").add_argument("command", nargs="?")

    def help(self, options):
        parser = self.parser if options.command is None else self.commands.choices.get(options.command)
        if parser is None:
            self.parser.error(f"{options.command!r} is no command")
        tell(parser.format_help(), end="")

    def parse(self):
        """The words. Faulty ones end the program, with status 2."""
        options = self.parser.parse_args(namespace=Options())
        named = os.environ.get("STAMPCTL_SERVER", "").split()
        options.is_named = bool(options.named or named)
        try:
            options.servers = options.named or list(map(words.server, named)) or [DEFAULT_SERVER]
        except argparse.ArgumentTypeError as fault:
            self.parser.error(f"STAMPCTL_SERVER: {fault}")
        if len(options.servers) > 1 and options.run not in (*FOR_SEVERAL, explain, self.help):
            self.parser.error("list and count alone take several servers")
        if getattr(options, "mode", None) == "twamp" and options.ssid:
            self.parser.error("a session of mode twamp has SSID 0")
        return options


def main():
    """An exit status."""
    try:
        options = Parser().parse()
        options.run(options)
    except Fault as fault:
        for line in str(fault).splitlines():
            print(f"stampctl: {line}", file=sys.stderr)
        return fault.status
    except KeyboardInterrupt:
        return INTERRUPTED
    return 0
