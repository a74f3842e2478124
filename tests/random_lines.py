# SPDX-License-Identifier: Apache-2.0
"""Random lines of an operator: mostly such as meet, and some that are no line, are cut off or are too long."""

from operator_model import CONFIGS, LINE_LIMIT, LOCALS, LONGEST_WAIT, NAMES

PEERS = (
    "192.0.2.1:5000", "192.0.2.1:5001", "10.0.0.255:65535", "0.0.0.0:1",
    "[2001:0db8:0000:0000:0000:0000:0000:0001]:862", "[0000:0000:0000:0000:0000:ffff:c000:0201]:5000",
)
WRONG_PEERS = (
    "192.0.2.1", "192.0.2.1:0", "192.0.2.1:65536", "192.0.2.256:862", "192.0.2.01:862", "192.0.2.1:0862", "192.0.2:862",
    "[2001:db8::1]:862", "[2001:0DB8:0000:0000:0000:0000:0000:0001]:862", "localhost:862", ":862", "",
)
WRONG_NUMBERS = ("", "00", "07", "-1", "+1", "1.0", "0x1", "1e3", "65536", "4294967296", "18446744073709551616", "9" * 40)
WRONG_NAMES = ("", "Edge", "a" * 17, "a.b", "\u00e4", "a/b", "edge\t")
UNKNOWN = ("", "frob", "LIST", "lists", "quit!", "help", "open", "config", "set 0", "\t", "list\r", "\0", "\x7f\u00ff")
FAULTY_CONFIGS = tuple(
    octets.hex() + bytes(64).hex()
    for octets in map(bytes.fromhex, (
        "10 00 00 01 00000000 00000028", "01 00 40 01 00000000 00000028", "01 00 00 00 00000000 00000028",
        "01 00 00 01 00000000 00000001", "01 00 00 01 00000000 80000000",
    ))
) + (CONFIGS["secure"].replace(b"\5", b"\1", 1).hex(),)


class Lines:
    """Makes the lines of one talk, knowing which sessions and names it asked for."""

    def __init__(self, random):
        self.random = random
        self.peers = random.sample(PEERS, random.randint(1, 3))
        self.names = [*CONFIGS]
        self.keys = []

    def often(self, right, wrong):
        """One of the right ones, and one in thirty times of the wrong ones."""
        return self.random.choice(right if self.random.random() < 29 / 30 else wrong)

    def key(self):
        random = self.random
        mode = self.often(("plain", "plain", "auth", "twamp"), ("", "Plain", "twmp"))
        local = self.often([str(local) for local in range(LOCALS)], (*WRONG_NUMBERS, str(LOCALS), "65535"))
        ssid = "0" if mode == "twamp" and random.random() < 0.9 else self.often(("0", "7", "65535"), WRONG_NUMBERS)
        return f"{local} {self.often(self.peers, WRONG_PEERS)} {mode} {ssid}"

    def some_key(self):
        return self.random.choice(self.keys) if self.keys and self.random.random() < 0.8 else self.key()

    def some_name(self):
        return self.often(self.names, (*WRONG_NAMES, "none"))

    def new_name(self):
        return self.often([f"n{self.random.randrange(40)}", "-", "_" * 16], (*WRONG_NAMES, *self.names))

    def digits(self):
        random = self.random
        pick = random.random()
        if pick < 0.1:
            return random.choice(FAULTY_CONFIGS)
        octets = random.choice(list(CONFIGS.values()))
        if pick < 0.5:
            octets = bytes([octets[0], random.randrange(3)]) + octets[2:]
        digits = random.choice((octets.hex(), octets.hex().upper()))
        return self.often((digits,), (digits[:-1], digits[:-2], digits + "00", "", "g" + digits[1:], digits[:-1] + " "))

    # ---- a method each line

    def config(self):
        self.names.append(self.new_name())
        return f"config {self.names[-1]} {self.digits()}"

    def open(self):
        self.keys.append(self.key())
        wait = self.often(("0", "3600", str(LONGEST_WAIT)), (*WRONG_NUMBERS[:-3], str(LONGEST_WAIT + 1)))
        return f"open {self.keys[-1]} {self.some_name()} {wait}"

    def set(self):
        return f"set {self.some_key()} {self.some_name()}"

    def close(self):
        return f"close {self.some_key()}"

    def count(self):
        return f"count {self.some_key()}"

    def list(self):
        return "list"

    def unknown(self):
        return self.random.choice(UNKNOWN)

    def any(self):
        makers = (self.open, self.set, self.close, self.count, self.list, self.config, self.unknown)
        return self.random.choices(makers, (8, 3, 3, 2, 2, 3, 1))[0]()

    # ---- faults of a line's form

    def spoiled(self, line):
        """The same with one change, which mostly is a fault."""
        random = self.random
        at = random.randrange(len(line) + 1)
        changes = (
            lambda: line[:at] + random.choice((" ", "\t", "\r", "\0", "x", "0", "\u00e9")) + line[at:],
            lambda: line[:at] + line[at + 1 :],
            lambda: line[:at],
            lambda: line + random.choice((" ", " 0", "\r")),
            lambda: line.swapcase(),
            lambda: line.replace(" ", "  ", 1),
        )
        return random.choice(changes)()

    def long(self):
        """A line around the limit, or far above it."""
        length = self.random.choice((LINE_LIMIT - 1, LINE_LIMIT - 1, LINE_LIMIT, LINE_LIMIT + 1, 600, 5000))
        return self.any().ljust(length, self.random.choice(" x"))

    def piece(self):
        """A line with its end, or now and then one that is cut before it."""
        pick = self.random.random()
        line = self.any()
        if pick < 0.08:
            line = self.spoiled(line)
        elif pick < 0.10:
            line = self.long()
        octets = line.encode()
        return octets if pick > 0.99 else octets + b"\n"


def pieces(random):
    """The lines of a talk. One in forty names about as many configurations as there may be, and one in five ends the desk."""
    maker = Lines(random)
    found = []
    if random.random() < 1 / 40:
        digits = CONFIGS["edge"].hex()
        found = [f"config many-{at} {digits}\n".encode() for at in range(NAMES - len(CONFIGS) - random.randrange(2))]
    found += [maker.piece() for _ in range(random.randint(1, 30))]
    if random.random() < 1 / 5:
        found.append(b"quit\n")
        found += [maker.piece() for _ in range(random.randrange(3))]
    return found
