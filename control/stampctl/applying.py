# SPDX-License-Identifier: Apache-2.0
"""The command `apply`: brings a running daemon to the sessions of a file. Those that are in both go on counting."""

from typing import NamedTuple

from stampctl import conf_file
from stampctl.configuration import Configuration
from stampctl.faults import FaultyFile, Refused, raise_all
from stampctl.operator_port import Operator
from stampctl.output import tell


class Line(NamedTuple):
    """A line for the operator's port. A key isn't to be printed, so `shown` is the line without it."""

    text: str
    shown: str


class Plan(NamedTuple):
    """Lines in the order in which they are sent, and how many sessions were left, since they may be a client's."""

    configs: list
    closings: list
    settings: list
    openings: list
    left: int

    def told(self):
        parts = ("configs", self.configs), ("closed", self.closings), ("set", self.settings), ("opened", self.openings)
        return " ".join(f"{name} {len(lines)}" for name, lines in parts) + f" left {self.left}"


def plan_of(file, conf, open_sessions):
    """What makes the sessions of a daemon those of a file. A FaultyFile where an operator's line can't say it."""
    wanted = {each.session: each for each in conf.sessions}
    missing = [each for session, each in wanted.items() if session not in open_sessions]
    kept = [each for session, each in wanted.items() if session in open_sessions]
    if extra := [each.place for each in missing if each.has_extra]:
        told = "a session with reflect or symmetrical opens at the daemon's start alone"
        raise FaultyFile(f"{file}: sessions.{extra[0]}: {told}")
    unwanted = [session for session in open_sessions if session not in wanted]
    of_clients = [session for session in unwanted if "control" in conf.root and session.mode == "twamp"]
    used = {each.config: Configuration.of_table(conf.configs[each.config]) for each in wanted.values()}
    return Plan(
        config_lines(used),
        [plain(f"close {session}") for session in unwanted if session not in of_clients],
        [plain(f"set {each.session} {used[each.config].name()}") for each in kept],
        [plain(f"open {each.session} {used[each.config].name()} {each.wait}") for each in missing],
        len(of_clients),
    )


def config_lines(used):
    """A line for each configuration that differs. Several names of the file may have one."""
    lines = {}
    for name, config in used.items():
        text = f"config {config.name()}"
        shown = f"{lines[text].shown[:-1]}, {name})" if text in lines else f"{text} ({name})"
        lines[text] = Line(f"{text} {config.octets().hex()}", shown)
    return list(lines.values())


def plain(text):
    return Line(text, text)


def send(operator, lines):
    """The refusals of lines, each with its line."""
    refusals = []
    for line in lines:
        try:
            operator.ask(line.text)
        except Refused as fault:
            # A name stands for its content, so one that is there has this configuration.
            if not (line.text.startswith("config ") and str(fault).endswith(" exists")):
                refusals.append(Refused(f"{fault}: {line.shown}"))
    return refusals


def apply(options):
    """Prints what was done, or what would be. A faulty file changes nothing, nor does a configuration that is refused. What
    else is refused is told, and the rest goes on."""
    conf = conf_file.served(options.file)
    server = options.server_or(conf.root.get("operator"))
    with Operator(server) as operator:
        plan = plan_of(options.file, conf, operator.sessions())
        if options.dry_run:
            for line in (*plan.configs, *plan.closings, *plan.settings, *plan.openings):
                tell(line.shown)
            return
        raise_all(send(operator, plan.configs))
        refusals = send(operator, (*plan.closings, *plan.settings, *plan.openings))
    tell(plan.told() + f" refused {len(refusals)}" * bool(refusals))
    raise_all(refusals)
