# SPDX-License-Identifier: Apache-2.0
"""What a daemon answers to an operator, written from docs/OPERATING.md and docs/FORMATS.md alone and in another way than the
program."""

import re

import file_model
import reflector_model

LOCALS = 2
SLOTS = 3
ROWS = 2
NAMES = 256
LINE_LIMIT = 512
LONGEST_WAIT = 31_536_000

# A file by which the daemon runs, and its configurations in octets. It has few slots and rows, so that they run out.
FILE = f"""locals = ["{{address}}:8620", "{{address}}:8621"]
operator = "{{address}}:8620"
slots = {SLOTS}
rows = {ROWS}
[configs.edge]
[configs.precise]
format = "ptp"
[configs.secure]
key = "{'01' * 16}"
"""
CONFIGS = {
    "edge": bytes.fromhex("01 00 00 01 00000000 00000028") + bytes(64),
    "precise": bytes.fromhex("03 00 00 01 00000000 00000028") + bytes(64),
    "secure": bytes.fromhex("05 00 00 01 00000000 00000028") + bytes([1] * 16) + bytes(48),
}
KEYED = 4

HEX = re.compile(r"[0-9a-fA-F]{152}")
MODES = ("plain", "auth", "twamp")


class Refused(Exception):
    """Why a line isn't done."""


def require(holds, cause):
    if not holds:
        raise Refused(cause)


def number(word, most):
    require(re.fullmatch(file_model.NUMBER, word) and int(word) <= most, "line")
    return int(word)


def name(word):
    require(file_model.NAME.fullmatch(word), "line")
    return word


def session_key(words):
    """Four words that are a session's: each has one spelling, so the words are the key."""
    local, peer, mode, ssid = words
    number(local, 65_535)
    require(file_model.is_endpoint(peer) and mode in MODES, "line")
    require(number(ssid, 65_535) == 0 or mode != "twamp", "line")
    return local, peer, mode, ssid


def is_config(octets):
    try:
        reflector_model.Config(reflector_model.Octets(octets))
    except reflector_model.GrammarLeft:
        return False
    return True


class Desk:
    """The desk of a daemon that no datagram reaches, and its one operator."""

    WORDS = {"config": 3, "open": 7, "set": 6, "close": 5, "count": 5, "list": 1, "quit": 1}

    def __init__(self):
        self.names = dict(CONFIGS)
        self.rows = set()
        self.sessions = {}
        self.closed = 0
        self.ended = False
        self.connect()

    def connect(self):
        self.held = b""
        self.hung_up = False

    def take(self, octets):
        """The answers to these octets of a connection, in lines."""
        answers = []
        self.held += octets
        while not (self.hung_up or self.ended):
            line, end, rest = self.held.partition(b"\n")
            if len(line + end) > LINE_LIMIT:
                self.hung_up = True
                answers.append("refused line")
            elif not end:
                break
            else:
                self.held = rest
                answers += self.line(line.decode("latin-1"))
        return "".join(f"{answer}\n" for answer in answers).encode()

    def line(self, text):
        word, *words = text.split(" ")
        try:
            require(1 + len(words) == self.WORDS.get(word), "line")
            return getattr(self, word)(*words)
        except Refused as refused:
            return [f"refused {refused}"]

    # ---- a method each line

    def config(self, word, digits):
        name(word)
        require(HEX.fullmatch(digits), "line")
        octets = bytes.fromhex(digits)
        require(is_config(octets), "config")
        require(word not in self.names, "exists")
        require(len(self.names) < NAMES, "names full")
        self.names[word] = octets
        return ["ok"]

    def open(self, *words):
        key = session_key(words[:4])
        name(words[4])
        number(words[5], LONGEST_WAIT)
        require(int(key[0]) < LOCALS, "local")
        require(words[4] in self.names, "no config")
        config = self.names[words[4]]
        require(key not in self.sessions, "duplicate")
        require(all(other[:2] != key[:2] or other[2] == key[2] for other in self.sessions), "mode clash")
        self.require_served(key, config)
        require(len(self.sessions) < SLOTS, f"full live {SLOTS} reserved 0 retired 0 held 0")
        self.sessions[key] = config
        self.rows.add(config)
        return ["ok"]

    def set(self, *words):
        key = session_key(words[:4])
        name(words[4])
        require(words[4] in self.names, "no config")
        config = self.names[words[4]]
        require(key in self.sessions, "no such")
        self.require_served(key, config)
        self.sessions[key] = config
        self.rows.add(config)
        return ["ok"]

    def require_served(self, key, config):
        require(key[2] != "auth" or config[0] & KEYED, "no key")
        require(config in self.rows or len(self.rows) < ROWS, "rows full")

    def close(self, *words):
        answers = self.count(*words)
        del self.sessions[words]
        self.closed += 1
        return answers

    def count(self, *words):
        require(session_key(words) in self.sessions, "no such")
        return ["ok 0"]

    def list(self):
        return [f"{' '.join(key)} 0" for key in self.sessions] + [f"ok {len(self.sessions)}"]

    def quit(self):
        self.ended = True
        return ["bye"]


def talk(pieces):
    """The connections, one after the other, in which these pieces are sent: their octets and the answers to them. Behind a
    hang-up the next piece begins another. Then the desk as it is left."""
    desk, talks, sent, answers = Desk(), [], b"", b""
    for piece in pieces:
        sent += piece
        answers += desk.take(piece)
        if desk.hung_up:
            talks.append((sent, answers))
            desk.connect()
            sent = answers = b""
    return [*talks, (sent, answers)], desk
