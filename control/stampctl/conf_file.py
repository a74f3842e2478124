# SPDX-License-Identifier: Apache-2.0
"""A configuration file: its faults, all of them and each with its place, and its sessions.

The rules are those of stampd.conf(5). The daemon tells the first fault in an order of its own and reads TOML 1.1; this
reads TOML 1.0, by Python's tomllib.
"""

import difflib
import pathlib
import re
import tomllib
from typing import NamedTuple

from stampctl.configuration import Configuration
from stampctl.faults import FaultyFile, Unreadable, cause_of
from stampctl.operator_port import Session
from stampctl.words import HOST_NAME, MODES, NAME, TLV_TYPES, exact_endpoint

OCTETS = 1_048_576
GREATEST = 2**63 - 1
DEPTH = 80
LOCALS = 16
SESSIONS = 16_384
WAIT = 31_536_000
PLACE = re.compile(r"(.*) \(at (?:line (\d+), column (\d+)|end of document)\)", re.S)


class Finding(NamedTuple):
    """What is wrong at a path of the file, such as `sessions.3.peer`; or what is to be thought of, where it is a hint."""

    path: str
    text: str
    is_hint: bool = False


class FileSession(NamedTuple):
    """A session of the file, by its place there."""

    place: int
    session: Session
    config: str
    wait: int
    has_extra: bool


# ---- values: each gives what is wrong with one, or none


def number_in(low, high):
    def wrong(value):
        if type(value) is not int:
            return f"wants a number from {low} to {high}"
        return None if low <= value <= high else f"{value} isn't a number from {low} to {high}"

    return wrong


def truth(value):
    return None if type(value) is bool else "wants true or false"


def one_of(*allowed):
    def wrong(value):
        return None if type(value) is str and value in allowed else f"wants {' or '.join(map(quoted, allowed))}"

    return wrong


def octets_in(low, high):
    def wrong(value):
        if type(value) is not str or not re.fullmatch(r"([0-9a-fA-F]{2})*", value):
            return "wants octets, each in two hexadecimal digits, as a text"
        length = len(value) // 2
        wanted = str(low) if low == high else f"{low} to {high}"
        return None if low <= length <= high else f"has {length} octets, in place of {wanted}"

    return wrong


def endpoint(value):
    form = 'as "192.0.2.1:862" or "[2001:0db8:0000:0000:0000:0000:0000:0001]:862"'
    if type(value) is not str:
        return f"wants an address with a port, {form}"
    try:
        exact = exact_endpoint(value)
    except ValueError:
        if "%" in value:
            return f"{quoted(value)} has a scope, and a link-local address can't be served"
        if HOST_NAME.fullmatch(value.rpartition(":")[0]):
            return f"{quoted(value)} is the name of a host; its address is wanted"
        return f"{quoted(value)} isn't an address with a port, {form}"
    return None if value == exact else f"{quoted(value)} is to be spelled {quoted(exact)}"


def tlv_type(value):
    return None if type(value) is int and value in TLV_TYPES else "wants 3, 5, 9 or 10"


def quoted(text):
    return f'"{text}"'


# ---- tables

ROOT = {
    "locals": None, "workers": number_in(1, 64), "slots": number_in(1, SESSIONS), "rows": number_in(1, 8_191),
    "limit": number_in(0, GREATEST), "turns": number_in(0, GREATEST), "control": endpoint, "operator": endpoint,
    "twamp": None, "configs": None, "sessions": None,
}  # fmt: skip
CONFIG = {
    "stateful": truth, "format": one_of("ntp", "ptp"), "offset": number_in(0, 255), "synced": truth,
    "scale": number_in(0, 63), "multiplier": number_in(1, 255), "key": octets_in(1, 256), "info": octets_in(4, 4),
    "tlvs": None,
}  # fmt: skip
SESSION = {
    "local": None, "peer": endpoint, "mode": one_of(*MODES), "ssid": number_in(0, 65_535), "config": None,
    "wait": number_in(0, WAIT), "reflect": number_in(0, 65_535), "symmetrical": truth,
}  # fmt: skip


def findings_of(table, keys, wanted, path):
    """The keys of a table that aren't known or that are missing, and the values that are wrong by themselves."""
    for key, value in table.items():
        if key not in keys:
            close = difflib.get_close_matches(key, keys, 1)
            yield Finding(path + key, "isn't known" + (f"; is {close[0]} meant?" if close else ""))
        elif keys[key] and (wrong := keys[key](value)):
            yield Finding(path + key, wrong)
    for key in wanted:
        if key not in table:
            yield Finding(path + key, "is missing")


class Conf:
    """A file's tables with all that is found in them. What follows from a fault isn't found besides."""

    def __init__(self, root):
        self.root = root
        self.findings = list(findings_of(root, ROOT, ("locals", "configs", *("twamp",) * ("control" in root)), ""))
        self.locals = self.different("locals", root.get("locals"), endpoint, LOCALS)
        self.configs = self.named_configs()
        if "twamp" in root:
            self.look_at_name("twamp", root["twamp"])
        self.sessions = self.all_sessions()
        if self.configs is not None and not self.faults():
            self.look_at_rows()

    def find(self, path, text):
        self.findings.append(Finding(path, text))

    def faults(self):
        return [found for found in self.findings if not found.is_hint]

    def different(self, path, values, wrong, most=None):
        """The values of a list in which no two are the same; none where it isn't a list, or not one of 1 to `most`."""
        if type(values) is not list or most and not 1 <= len(values) <= most:
            if values is not None:
                self.find(path, f"wants a list of 1 to {most}" if most else "wants a list")
            return None
        for place, value in enumerate(values):
            if text := wrong(value):
                self.find(f"{path}.{place}", text)
            elif value in values[:place]:
                self.find(f"{path}.{place}", "stands there a second time")
        return values

    def named_configs(self):
        tables = self.root.get("configs")
        if tables is None:
            return None
        if type(tables) is not dict or not 1 <= len(tables) <= 256:
            self.find("configs", "wants 1 to 256 tables, as [configs.edge]")
            return None
        for name, table in tables.items():
            if not NAME.fullmatch(name):
                self.find("configs", f"{quoted(name)} is no name: 1 to 16 of a to z, the digits, _ and -")
            if type(table) is not dict:
                self.find(f"configs.{name}", "wants a table")
                continue
            self.findings += findings_of(table, CONFIG, (), f"configs.{name}.")
            if "tlvs" in table:
                self.different(f"configs.{name}.tlvs", table["tlvs"], tlv_type)
        return tables

    def look_at_name(self, path, value):
        if type(value) is not str or value not in (self.configs or ()) or not NAME.fullmatch(value):
            self.find(path, f"{quoted(value)} isn't one of the configurations")

    def all_sessions(self):
        tables = self.root.get("sessions", [])
        slots = self.root.get("slots", 1_024)
        if type(tables) is not list:
            self.find("sessions", "wants tables, as [[sessions]]")
            return []
        if type(slots) is int and 1 <= slots <= SESSIONS and len(tables) > slots:
            self.find("sessions", f"are {len(tables)}, and slots are {slots}")
        found = [self.one_session(place, table) for place, table in enumerate(tables)]
        found = [each for each in found if each]
        self.look_at_pairs(found)
        return found

    def one_session(self, place, table):
        """A session; none where it has a fault."""
        path = f"sessions.{place}"
        if type(table) is not dict:
            self.find(path, "wants a table")
            return None
        before = len(self.findings)
        self.findings += findings_of(table, SESSION, ("peer", "config"), f"{path}.")
        local, mode, ssid = table.get("local", 0), table.get("mode", "plain"), table.get("ssid", 0)
        if wrong := number_in(0, (len(self.locals) if self.locals else LOCALS) - 1)(local):
            self.find(f"{path}.local", f"{wrong}, the places of locals")
        if "config" in table:
            self.look_at_name(f"{path}.config", table["config"])
        if len(self.findings) > before:
            return None
        extra = bool(table.get("reflect", 0) or table.get("symmetrical", False))
        if mode == "twamp" and ssid:
            self.find(path, "is of mode twamp, and so its ssid is 0")
        elif mode != "twamp" and extra:
            self.find(path, f"is of mode {mode}, and reflect and symmetrical are of mode twamp alone")
        elif mode == "auth" and self.configs and not self.has_key(table["config"]):
            self.find(path, f"is of mode auth, and its configuration {table['config']} has no key")
        session = Session(local, table["peer"], mode, ssid)
        return FileSession(place, session, table["config"], table.get("wait", 0), extra)

    def has_key(self, name):
        return type(self.configs[name]) is dict and "key" in self.configs[name]

    def look_at_pairs(self, sessions):
        """No two sessions are one, and no two at the same ends differ in their mode."""
        places, modes = {}, {}
        for place, session, *_ in sessions:
            ends = session.local, session.peer
            if session in places:
                self.find(f"sessions.{place}", f"is the same session as sessions.{places[session]}")
            elif modes.setdefault(ends, (session.mode, place))[0] != session.mode:
                other = modes[ends]
                self.find(f"sessions.{place}", f"has local and peer of sessions.{other[1]}, whose mode is {other[0]}")
            places.setdefault(session, place)

    def look_at_rows(self):
        used = {session.config for session in self.sessions} | {name for name in [self.root.get("twamp")] if name}
        distinct = {Configuration.of_table(self.configs[name]).octets() for name in used}
        rows = self.root.get("rows", 64)
        if len(distinct) > rows:
            self.find("rows", f"are {rows}, and {len(distinct)} configurations that differ are used")


# ---- files


def values_of(value, depth=1):
    """Each value within a value, and how deep it stands, the outer ones first."""
    yield value, depth
    if type(value) in (dict, list):
        for inner in value.values() if type(value) is dict else value:
            yield from values_of(inner, depth + 1)


def root_of(file, octets):
    """The root of a file of these octets. What isn't TOML is a FaultyFile with line and column."""
    try:
        text = octets.decode()
        root = tomllib.loads(text)
    except UnicodeDecodeError as fault:
        before = octets[: fault.start]
        line, column = before.count(b"\n") + 1, fault.start - before.rfind(b"\n")
        raise FaultyFile(f"{file}:{line}:{column}: not TOML: octet {octets[fault.start]:#04x} isn't UTF-8") from None
    except tomllib.TOMLDecodeError as fault:
        cause, line, column = PLACE.fullmatch(str(fault)).groups()
        place = f"{line}:{column}" if line else str(text.count("\n") + 1)
        raise FaultyFile(f"{file}:{place}: not TOML 1.0: {cause}") from None
    except RecursionError:
        raise FaultyFile(f"{file}: not TOML: it nests more than {DEPTH} deep") from None
    for value, depth in values_of(root):
        if depth > DEPTH:
            raise FaultyFile(f"{file}: not TOML: it nests more than {DEPTH} deep")
        if type(value) is int and not -(2**63) <= value <= GREATEST:
            raise FaultyFile(f"{file}: not TOML: {value} fits no signed 64 bits")
    return root


def read(file):
    """The octets and the Conf of a file. An Unreadable or a FaultyFile."""
    try:
        octets = pathlib.Path(file).read_bytes()
    except (OSError, ValueError) as fault:
        raise Unreadable(f"{file}: {cause_of(fault) if isinstance(fault, OSError) else fault}") from None
    if len(octets) > OCTETS:
        raise Unreadable(f"{file}: has {len(octets)} octets, and a file has at most {OCTETS}")
    return octets, Conf(root_of(file, octets))


def lines_of(text):
    """The line of each path whose key, or whose head of a table, stands at the start of one."""
    found, counts, path = {}, {}, ""
    for number, line in enumerate(text.splitlines(), 1):
        if head := re.match(r"\s*(\[\[?)\s*([^\[\]]+?)\s*\]", line):
            path = head[2].replace('"', "").replace("'", "")
            if head[1] == "[[":
                counts[path] = place = counts.get(path, -1) + 1
                path = f"{path}.{place}"
            found.setdefault(path, number)
        elif key := re.match(r"""\s*(["'\w.-]+)\s*=""", line):
            name = key[1].replace('"', "").replace("'", "")
            found.setdefault(f"{path}.{name}" if path else name, number)
    return found


def told(file, octets, findings):
    """A line for each finding: the file, the line where it is found, the path, and what is wrong."""
    lines = lines_of(octets.decode())
    for path, text, is_hint in findings:
        place = path
        while place and place not in lines:
            place = place.rpartition(".")[0]
        where = f"{file}:{lines[place]}" if place else str(file)
        yield f"{where}: {path}: {'hint: ' * is_hint}{text}".replace("\n", "\\n")


def served(file):
    """The Conf of a file that the daemon would serve by; else all its faults, as a FaultyFile."""
    octets, conf = read(file)
    if faults := conf.faults():
        raise FaultyFile("\n".join(told(file, octets, faults)))
    return conf
