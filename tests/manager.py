# SPDX-License-Identifier: Apache-2.0
"""Plays what a service manager does with an installed unit: of systemd.service(5) as much as this unit's commands want."""

import os
import pathlib
import re
import shlex
import signal
import subprocess

PREFIXES = "-@:+!"
SECONDS = 60


class Unit:
    """The values of an installed unit, by their keys."""

    def __init__(self, file):
        self.values = {}
        for key, value in re.findall(r"^(\w+)=(.*)$", pathlib.Path(file).read_text(), re.M):
            self.values.setdefault(key, []).append(value)

    def value(self, key):
        """The one value of a key."""
        found = self.values.get(key, [])
        assert len(found) == 1, f"the unit has {len(found)} times {key}="
        return found[0]

    def commands(self, key, variables):
        """The words of each command, and whether its failure is one of the unit."""
        for line in self.values.get(key, []):
            command = line.lstrip(PREFIXES)
            yield expanded(shlex.split(command), variables), "-" not in line[: len(line) - len(command)]


def expanded(words, variables):
    """`${NAME}` is replaced within a word, and `$NAME` where it is one; other dollars are for the command itself."""
    found = []
    for word in words:
        if alone := re.fullmatch(r"\$(\w+)", word):
            found += variables.get(alone[1], "").split()
        else:
            found.append(re.sub(r"\$\{(\w+)\}", lambda name: variables.get(name[1], ""), word))
    return found


class Manager:
    """Starts and stops the daemon of a unit, whose credentials are copied into a folder. The variables of the environment
    that are given stand for an `Environment=` of the unit. `before` may get words that stand before each command but the
    daemon's."""

    def __init__(self, file, folder, **environment):
        self.unit = Unit(file)
        self.before = []
        self.environment = os.environ | environment
        name, path = self.unit.value("LoadCredential").split(":", 1)
        pathlib.Path(folder, name).write_bytes(pathlib.Path(path).read_bytes())
        self.variables = {"CREDENTIALS_DIRECTORY": str(folder)}
        self.journal = []

    def __enter__(self):
        ((words, _),) = self.unit.commands("ExecStart", self.variables)
        streams = {"stdin": subprocess.DEVNULL, "stdout": subprocess.PIPE, "stderr": subprocess.STDOUT}
        self.process = subprocess.Popen(words, env=self.environment, text=True, **streams)
        self.run("ExecStartPost", **self.of_process())
        return self

    def __exit__(self, *_):
        if self.process.poll() is None:
            self.process.kill()
        self.process.communicate()

    def of_process(self):
        """MAINPID, as long as there is one."""
        return {"MAINPID": str(self.process.pid)} if self.process.poll() is None else {}

    def run(self, key, **variables):
        """Runs the commands of a key, and keeps what they say and their statuses."""
        for words, is_vital in self.unit.commands(key, self.variables | variables):
            options = {"env": self.environment | variables, "text": True, "timeout": SECONDS}
            streams = {"stdin": subprocess.DEVNULL, "stdout": subprocess.PIPE, "stderr": subprocess.STDOUT}
            ended = subprocess.run([*self.before, *words], **options, **streams)
            self.journal.append((key, ended.stdout, ended.returncode))
            assert not is_vital or ended.returncode == 0, self.journal

    def stop(self):
        """What the daemon has written, and its status. It is stopped, or has ended by itself: a manager does the same."""
        self.run("ExecStop", **self.of_process())
        self.process.send_signal(signal.SIGTERM)
        told, _ = self.process.communicate(timeout=SECONDS)
        self.run("ExecStopPost", EXIT_STATUS=str(self.process.returncode))
        return told, self.process.returncode

    def said(self, key):
        """What the commands of a key have said, and their statuses."""
        return [(told, status) for of, told, status in self.journal if of == key]
