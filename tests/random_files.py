# SPDX-License-Identifier: Apache-2.0
"""Random configuration files: half of them sound, the others with a few faults."""

import datetime

WRONG = (
    -1, 0, 1, 2, 64, 65, 255, 256, 8191, 8192, 16384, 16385, 65535, 65536, 31536000, 31536001, 2**63 - 1, 2**63,
    True, False, 1.5, "", "x", "plain", "auth", "twamp", "ntp", "NTP", "edge", "0g", "abc", "a" * 17, "00000000",
    "192.0.2.1:862", "192.0.2.256:862", "192.0.2.1:0", "192.0.2.01:862", "192.0.2.1:65536", "192.0.2.1",
    "[2001:0db8:0000:0000:0000:0000:0000:0001]:862", "[2001:db8::1]:862", [], [3], [3, 3], [3, 4], ["x"], {},
    {"x": 1}, datetime.date(2026, 1, 1),
)
ODD_KEYS = ("", "x", "Locals", "a.b", "peer ", "line\nend", "\u00e4", "zz", "-", "A")


def endpoint(random, ports=(862, 5000, 65535)):
    if random.random() < 0.7:
        return f"192.0.2.{random.randrange(8)}:{random.choice(ports)}"
    return f"[2001:0db8:0000:0000:0000:0000:0000:000{random.randrange(8)}]:{random.choice(ports)}"


def sometimes(random, table, key, make, chance=0.4):
    if random.random() < chance:
        table[key] = make()


def config(random):
    table = {}
    choose = lambda *values: lambda: random.choice(values)
    sometimes(random, table, "stateful", choose(True, False))
    sometimes(random, table, "format", choose("ntp", "ptp"))
    sometimes(random, table, "offset", choose(0, 37, 255))
    sometimes(random, table, "synced", choose(True, False))
    sometimes(random, table, "scale", choose(0, 1, 63))
    sometimes(random, table, "multiplier", choose(1, 2, 255))
    sometimes(random, table, "key", lambda: "aB" * random.choice((1, 16, 64, 65, 256)), 0.6)
    sometimes(random, table, "info", choose("00000000", "0102aBcD"))
    sometimes(random, table, "tlvs", lambda: random.sample((3, 5, 9, 10), random.randrange(5)))
    return table


def session(random, names, locals_count):
    table = {"peer": endpoint(random), "config": random.choice(names)}
    mode = random.choice(("plain", "plain", "auth", "twamp"))
    if mode != "plain" or random.random() < 0.3:
        table["mode"] = mode
    sometimes(random, table, "local", lambda: random.randrange(locals_count))
    if mode == "twamp":
        sometimes(random, table, "reflect", lambda: random.choice((0, 27, 65535)))
        sometimes(random, table, "symmetrical", lambda: random.random() < 0.5)
    else:
        sometimes(random, table, "ssid", lambda: random.choice((0, 7, 65535)), 0.7)
    sometimes(random, table, "wait", lambda: random.choice((0, 1, 31_536_000)))
    return table


def file(random):
    names = random.sample(("edge", "a", "b-2", "core_1", "z" * 16), random.randint(1, 4))
    addresses = list({endpoint(random): None for _ in range(random.randint(1, 4))})
    root = {"locals": addresses, "configs": {name: config(random) for name in names}}
    sometimes(random, root, "workers", lambda: random.choice((1, 2, 64)))
    sometimes(random, root, "slots", lambda: random.choice((1, 4, 16384)), 0.2)
    sometimes(random, root, "rows", lambda: random.choice((1, 2, 8191)), 0.3)
    sometimes(random, root, "limit", lambda: random.choice((0, 2**63 - 1)), 0.2)
    sometimes(random, root, "turns", lambda: random.choice((0, 2**63 - 1)), 0.2)
    sometimes(random, root, "operator", lambda: endpoint(random), 0.3)
    sometimes(random, root, "twamp", lambda: random.choice(names), 0.3)
    if "twamp" in root:
        sometimes(random, root, "control", lambda: endpoint(random), 0.5)
    count = random.choice((0, 1, 2, 3, 6))
    if count:
        root["sessions"] = [session(random, names, len(addresses)) for _ in range(count)]
    return root


# ---- faults


def inner_tables(value):
    if isinstance(value, dict):
        yield value
        value = value.values()
    elif not isinstance(value, list):
        return
    for inner in value:
        yield from inner_tables(inner)


def lists_of(value):
    if isinstance(value, list):
        yield value
    for inner in value.values() if isinstance(value, dict) else value if isinstance(value, list) else ():
        yield from lists_of(inner)


def spoil(random, root):
    """One change, which may or may not be a fault."""
    table = random.choice(list(inner_tables(root)))
    lists = [found for found in lists_of(root) if found]
    pick = random.randrange(6)
    if pick == 0:
        table[random.choice(ODD_KEYS)] = random.choice((1, {}))
    elif pick == 1 and table:
        del table[random.choice(list(table))]
    elif pick == 2 and lists:
        found = random.choice(lists)
        found[random.randrange(len(found))] = random.choice(WRONG)
    elif pick == 3 and lists:
        found = random.choice(lists)
        found.append(found[random.randrange(len(found))])
    elif table:
        table[random.choice(list(table))] = random.choice(WRONG)


# ---- TOML


def text_of(value):
    if isinstance(value, bool):
        return "true" if value else "false"
    if isinstance(value, str):
        escaped = value.replace("\\", "\\\\").replace('"', '\\"').replace("\n", "\\n")
        return f'"{escaped}"'
    if isinstance(value, list):
        return "[" + ", ".join(map(text_of, value)) + "]"
    if isinstance(value, dict):
        return "{" + ", ".join(f"{text_of(key)} = {text_of(inner)}" for key, inner in value.items()) + "}"
    return str(value)


def lines_of(root):
    """The file in lines, tables by their headers where that can be said."""
    headed = []
    for key, value in root.items():
        if key == "configs" and isinstance(value, dict) and value and all(isinstance(v, dict) for v in value.values()):
            headed += [(f"[configs.{text_of(name)}]", table) for name, table in value.items()]
        elif key == "sessions" and isinstance(value, list) and value and all(isinstance(v, dict) for v in value):
            headed += [("[[sessions]]", table) for table in value]
        else:
            yield f"{text_of(key)} = {text_of(value)}"
    for header, table in headed:
        yield header
        for key, value in table.items():
            yield f"{text_of(key)} = {text_of(value)}"


def lines(random):
    """A file as a list of lines."""
    root = file(random)
    for _ in range(random.choice((0, 0, 0, 1, 1, 2))):
        spoil(random, root)
    found = list(lines_of(root))
    if random.random() < 0.05:
        at = random.randrange(len(found))
        found[at] = found[at][: random.randrange(len(found[at]) + 1)]
    return [line + "\n" for line in found]
