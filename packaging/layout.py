# SPDX-License-Identifier: Apache-2.0
"""What is installed, and where, below a prefix: for an installation, a package and an archive."""

import pathlib
import re
from typing import Callable, NamedTuple

from stampctl_archive import archive

TOP = pathlib.Path(__file__).resolve().parent.parent
CONFIGURATION = "/etc/stampd.conf"  # as the sources of the pages name it
TOOLS = ("captures.py", "delays", "from_pcap", "replay_streams.py", "to_pcap", "why")
COMMANDS = {"stampd-delays": "delays", "stampd-from-pcap": "from_pcap", "stampd-to-pcap": "to_pcap", "stampd-why": "why"}
COMPLETIONS = {"stampctl.bash": "bash-completion/completions/stampctl", "_stampctl": "zsh/site-functions/_stampctl"}
PAGE = "stampd-why"  # the page of all of them
DOCUMENTS = "share/doc/stampd"
OWN_FOLDERS = ("lib/stampd", f"{DOCUMENTS}/docs", f"{DOCUMENTS}/examples", f"{DOCUMENTS}/prometheus", DOCUMENTS)
PREFIX = re.compile(r"(?:/[A-Za-z0-9._+@:,=~ -]+)+")


class File(NamedTuple):
    place: str  # where users find it
    mode: int
    content: Callable[[], bytes]


class Link(NamedTuple):
    place: str
    target: str


class Prefix:
    """A folder below which a program is installed. A ValueError where no unit could name it."""

    def __init__(self, path):
        if not PREFIX.fullmatch(path):
            raise ValueError(f"{path!r} is no prefix: letters, digits, blanks and ._+@:,=~- may stand between its slashes")
        self.path = path

    @property
    def configuration(self):
        return CONFIGURATION if self.path == "/usr" else self.path + CONFIGURATION

    @property
    def unit(self):
        return f"{self.path}/lib/systemd/system/stampd.service"

    def filled(self, *parts):
        """Gives a file of the sources with the places of this prefix in it."""

        def fill():
            text = TOP.joinpath(*parts).read_text()
            for old, new in (("@BIN@", f"{self.path}/bin"), ("@CONFIGURATION@", CONFIGURATION)):
                text = text.replace(old, new)
            return text.replace(CONFIGURATION, self.configuration).encode()

        return fill


def copied(*parts):
    """Gives a file of the sources as it is."""
    return TOP.joinpath(*parts).read_bytes


def documents():
    """The documents that users read, in the folders by which they link to each other. An archive has one more."""
    yield from ("LICENSE", "NEWS.md", "README.md", "SECURITY.md", *(("PROVED.md",) if (TOP / "PROVED.md").exists() else ()))
    yield from (f"docs/{file.name}" for file in sorted((TOP / "docs").glob("*.md")))
    yield from (f"examples/{file.name}" for file in sorted((TOP / "examples").glob("*.toml")))


def layout(prefix, program):
    """The files and links of an installation but for the first configuration. `program` gives the octets of the program."""
    at = prefix.path
    yield File(f"{at}/bin/stampd", 0o755, program)
    yield File(f"{at}/bin/stampctl", 0o755, archive)
    yield File(f"{at}/bin/stampd-run", 0o755, copied("packaging", "stampd-run"))
    for name in TOOLS:
        yield File(f"{at}/lib/stampd/{name}", 0o644 if name.endswith(".py") else 0o755, copied("tools", name))
    for name, tool in COMMANDS.items():
        yield Link(f"{at}/bin/{name}", f"../lib/stampd/{tool}")
    for page in sorted((TOP / "man").iterdir()):
        yield File(f"{at}/share/man/man{page.suffix[1:]}/{page.name}", 0o644, prefix.filled("man", page.name))
    for name in COMMANDS.keys() - {PAGE}:
        yield Link(f"{at}/share/man/man1/{name}.1", f"{PAGE}.1")
    for name, place in COMPLETIONS.items():
        yield File(f"{at}/share/{place}", 0o644, copied("packaging", "completion", name))
    for file in sorted((TOP / "packaging" / "prometheus").iterdir()):
        yield File(f"{at}/{DOCUMENTS}/prometheus/{file.name}", 0o644, file.read_bytes)
    for name in documents():
        yield File(f"{at}/{DOCUMENTS}/{name}", 0o644, copied(name))
    yield File(prefix.unit, 0o644, prefix.filled("packaging", "stampd.service"))


def first_configuration(prefix):
    """It may get keys, so its owner alone reads it."""
    return File(prefix.configuration, 0o600, copied("examples", "lab.toml"))


def version():
    """The version of the sources, as NEWS.md has it."""
    return re.search(r"^## (\d+\.\d+\.\d+)", (TOP / "NEWS.md").read_text(), re.M)[1]
