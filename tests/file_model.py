# SPDX-License-Identifier: Apache-2.0
"""What `stampd check` says of a file, written from docs/CONFIGURATION.md alone and in another way than the program."""

import hashlib
import re
import tomllib

GREATEST = 2**63 - 1
FILE_LIMIT = 1_048_576
ROOT = ("locals", "workers", "slots", "rows", "limit", "turns", "control", "operator", "twamp", "configs", "sessions")
CONFIG = ("stateful", "format", "offset", "synced", "scale", "multiplier", "key", "info", "tlvs")
SESSION = ("local", "peer", "mode", "ssid", "config", "wait", "reflect", "symmetrical")
NAME = re.compile(r"[a-z0-9_-]{1,16}")
NUMBER = r"(?:0|[1-9][0-9]{0,9})"
IPV4 = re.compile(rf"({NUMBER})\.({NUMBER})\.({NUMBER})\.({NUMBER}):({NUMBER})")
IPV6 = re.compile(rf"\[[0-9a-f]{{4}}(?::[0-9a-f]{{4}}){{7}}\]:({NUMBER})")
HEXADECIMAL = re.compile(r"(?:[0-9a-fA-F]{2})*")


class Fault(Exception):
    """The first fault of a file, as it is told."""


def fault(kind, path):
    raise Fault(f"{kind} {path}")


def in_byte_order(keys):
    return sorted(keys, key=lambda key: key.encode())


def unknown_and_missing(table, known, wanted, path):
    for key in in_byte_order(table):
        if key not in known:
            fault("unknown", path + key)
    for key in wanted:
        if key not in table:
            fault("missing", path + key)


# ---- values


def of_type(value, kind, path):
    if type(value) is not kind:
        fault("bad", path)
    return value


def number_in(value, least, most, path):
    of_type(value, int, path)
    if not least <= value <= most:
        fault("limit", path)
    return value


def is_endpoint(text):
    if found := IPV4.fullmatch(text):
        *parts, port = map(int, found.groups())
        return max(parts) <= 255 and 1 <= port <= 65_535
    if found := IPV6.fullmatch(text):
        return 1 <= int(found[1]) <= 65_535
    return False


def endpoint(value, path):
    if not is_endpoint(of_type(value, str, path)):
        fault("bad", path)
    return value


def one_of(value, allowed, path):
    if of_type(value, str, path) not in allowed:
        fault("bad", path)
    return value


def name_in(value, names, path):
    of_type(value, str, path)
    if not NAME.fullmatch(value) or value not in names:
        fault("bad", path)
    return value


def hexadecimal(value, path):
    of_type(value, str, path)
    if not HEXADECIMAL.fullmatch(value):
        fault("bad", path)
    return bytes.fromhex(value)


def all_different(values, take, path):
    """The places of a list in order, each taken, none a second time."""
    found = []
    for at, value in enumerate(values):
        taken = take(value, f"{path}.{at}")
        if taken in found:
            fault("bad", f"{path}.{at}")
        found.append(taken)
    return found


def tlv_type(value, path):
    if of_type(value, int, path) not in (3, 5, 9, 10):
        fault("bad", path)
    return value


# ---- configurations and sessions


def read_config(table, path):
    """A configuration as what two equal ones have in common."""
    of_type(table, dict, path)
    path += "."
    unknown_and_missing(table, CONFIG, (), path)
    stateful = of_type(table.get("stateful", True), bool, path + "stateful")
    form = one_of(table.get("format", "ntp"), ("ntp", "ptp"), path + "format")
    offset = number_in(table.get("offset", 0), 0, 255, path + "offset")
    synced = of_type(table.get("synced", False), bool, path + "synced")
    scale = number_in(table.get("scale", 0), 0, 63, path + "scale")
    multiplier = number_in(table.get("multiplier", 1), 1, 255, path + "multiplier")
    block = None
    if "key" in table:
        key = hexadecimal(table["key"], path + "key")
        if not 1 <= len(key) <= 256:
            fault("limit", path + "key")
        block = (hashlib.sha256(key).digest() if len(key) > 64 else key).ljust(64, b"\0")
    info = hexadecimal(table.get("info", "00000000"), path + "info")
    if len(info) != 4:
        fault("bad", path + "info")
    tlvs = of_type(table.get("tlvs", [3, 5]), list, path + "tlvs")
    types = frozenset(all_different(tlvs, tlv_type, path + "tlvs"))
    return stateful, form, offset, synced, scale, multiplier, block, info, types


def read_configs(tables):
    of_type(tables, dict, "configs")
    if not 1 <= len(tables) <= 256:
        fault("limit", "configs")
    found = {}
    for name in in_byte_order(tables):
        if not NAME.fullmatch(name):
            fault("bad", "configs")
        found[name] = read_config(tables[name], f"configs.{name}")
    return found


def read_session(table, at, locals_count, configs, earlier):
    path = f"sessions.{at}"
    of_type(table, dict, path)
    unknown_and_missing(table, SESSION, ("peer", "config"), path + ".")
    within = lambda key: f"{path}.{key}"
    local = number_in(table.get("local", 0), 0, locals_count - 1, within("local"))
    peer = endpoint(table["peer"], within("peer"))
    mode = one_of(table.get("mode", "plain"), ("plain", "auth", "twamp"), within("mode"))
    ssid = number_in(table.get("ssid", 0), 0, 65_535, within("ssid"))
    config = name_in(table["config"], configs, within("config"))
    number_in(table.get("wait", 0), 0, 31_536_000, within("wait"))
    reflect = number_in(table.get("reflect", 0), 0, 65_535, within("reflect"))
    symmetrical = of_type(table.get("symmetrical", False), bool, within("symmetrical"))
    sound = ssid == 0 if mode == "twamp" else not reflect and not symmetrical
    keyed = configs[config][6] is not None
    clash = any(
        (local, peer) == e[:2] and (mode != e[2] or ssid == e[3]) for e in earlier
    )
    if not sound or (mode == "auth" and not keyed) or clash:
        fault("bad", path)
    return local, peer, mode, ssid, config


def read_file(root):
    unknown_and_missing(root, ROOT, ("locals", "configs") + (("twamp",) if "control" in root else ()), "")
    addresses = of_type(root["locals"], list, "locals")
    if not 1 <= len(addresses) <= 16:
        fault("limit", "locals")
    all_different(addresses, endpoint, "locals")
    number_in(root.get("workers", 1), 1, 64, "workers")
    slots = number_in(root.get("slots", 1024), 1, 16_384, "slots")
    rows = number_in(root.get("rows", 64), 1, 8_191, "rows")
    number_in(root.get("limit", 0), 0, GREATEST, "limit")
    number_in(root.get("turns", GREATEST), 0, GREATEST, "turns")
    for key in ("control", "operator"):
        if key in root:
            endpoint(root[key], key)
    if "twamp" in root:
        tables = root["configs"]
        name_in(root["twamp"], tables if type(tables) is dict else (), "twamp")
    configs = read_configs(root["configs"])
    sessions = of_type(root.get("sessions", []), list, "sessions")
    if len(sessions) > min(slots, 16_384):
        fault("limit", "sessions")
    found = []
    for at, table in enumerate(sessions):
        found.append(read_session(table, at, len(addresses), configs, found))
    used = {session[4] for session in found} | ({root["twamp"]} if "twamp" in root else set())
    if len({configs[name] for name in used}) > rows:
        fault("limit", "rows")
    return f"ok locals {len(addresses)} configs {len(configs)} sessions {len(found)}\n"


def numbers_of(value):
    if type(value) is int:
        yield value
    for inner in value.values() if type(value) is dict else value if type(value) is list else ():
        yield from numbers_of(inner)


def check(text):
    """What is written for a file of these octets, and the exit status."""
    if len(text) > FILE_LIMIT:
        return "stampd: file too long\n", 5
    try:
        root = tomllib.loads(text.decode())
        if any(not -(2**63) <= number <= GREATEST for number in numbers_of(root)):
            raise ValueError
    except ValueError:
        return "stampd: configuration: not toml\n", 3
    try:
        return read_file(root), 0
    except Fault as found:
        return f"stampd: configuration: {found}\n", 3
