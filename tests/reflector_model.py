# SPDX-License-Identifier: Apache-2.0
"""What `stampd replay` answers, written from docs/FORMATS.md alone and in another way than the program.

It is slow and plain on purpose: each rule stands once, in the words of that document.
"""

import hashlib
import hmac

OPEN, SET, CLOSE, DATAGRAM, LOCALS = 1, 2, 3, 4, 5
PLAIN, AUTHENTICATED, TWAMP = 0, 1, 2
MOST_SESSIONS = MOST_CONFIGS = 1024
STREAM_LIMIT = 1 << 30
UNRECOGNIZED, MALFORMED, INTEGRITY_FAILED = 0x80, 0x40, 0x20
TLV_BITS = 1 << 3 | 1 << 5 | 1 << 9 | 1 << 10
BASE_LENGTHS = {PLAIN: 44, AUTHENTICATED: 112, TWAMP: 14}


class GrammarLeft(Exception):
    """A field is outside what the format allows."""


def number(octets):
    return int.from_bytes(octets, "big")


class Octets:
    """Reads fields from the front."""

    def __init__(self, octets):
        self.left = octets

    def take(self, count):
        if len(self.left) < count:
            raise GrammarLeft
        taken, self.left = self.left[:count], self.left[count:]
        return taken

    def number(self, count):
        return number(self.take(count))

    def end(self):
        if self.left:
            raise GrammarLeft


def require(holds):
    if not holds:
        raise GrammarLeft


# ---- parts of records


def read_endpoint(fields):
    octets = fields.take(19)
    require(octets[0] in (4, 6))
    if octets[0] == 4:
        require(octets[5:17] == bytes(12))
    return octets


def read_key(fields):
    local = fields.number(2)
    sender = read_endpoint(fields)
    mode = fields.number(1)
    ssid = fields.number(2)
    require(mode in (PLAIN, AUTHENTICATED, TWAMP))
    if mode == TWAMP:
        require(ssid == 0)
    return local, sender, mode, ssid


def read_extra(fields, mode):
    symmetrical, reflected = fields.number(1), fields.number(2)
    require(symmetrical in (0, 1))
    if mode != TWAMP:
        require(symmetrical == 0 and reflected == 0)
    return symmetrical == 1, reflected


class Config:
    """A configuration of 76 octets."""

    def __init__(self, fields):
        self.octets = fields.take(76)
        parts = Octets(self.octets)
        flags = parts.number(1)
        self.offset, self.scale, self.multiplier = parts.number(1), parts.number(1), parts.number(1)
        self.info = parts.take(4)
        self.tlvs = parts.number(4)
        self.key_block = parts.take(64)
        self.stateful, self.ptp, self.keyed, self.synchronized = (
            bool(flags & bit) for bit in (1, 2, 4, 8)
        )
        require(flags < 16)
        require(self.scale <= 63 and self.multiplier >= 1)
        require(self.tlvs & ~TLV_BITS == 0)
        require(self.keyed or self.key_block == bytes(64))

    def supports(self, kind):
        return bool(self.tlvs >> kind & 1)

    def understands(self, kind):
        if kind == 1:
            return True
        if kind == 8:
            return self.keyed
        return kind in (3, 5, 9, 10) and self.supports(kind)

    def mac(self, octets):
        return hmac.new(self.key_block, octets, hashlib.sha256).digest()[:16]

    def timestamp(self, moment):
        seconds, nanoseconds = divmod(moment, 10**9)
        if self.ptp:
            return ((seconds + self.offset) % 2**32).to_bytes(4, "big") + nanoseconds.to_bytes(4, "big")
        fraction = nanoseconds * 2**32 // 10**9
        return ((seconds + 2208988800) % 2**32).to_bytes(4, "big") + fraction.to_bytes(4, "big")

    def error_estimate(self):
        first = self.synchronized << 7 | self.ptp << 6 | self.scale
        return bytes([first, self.multiplier])


class Session:
    def __init__(self, key, extra, config):
        self.local, self.sender, self.mode, self.ssid = key
        self.symmetrical, self.reflected = extra
        self.config = config
        self.count = 0

    def matches(self, local, sender, octets):
        if (self.local, self.sender) != (local, sender):
            return False
        if self.mode == TWAMP:
            return True
        at = 14 if self.mode == PLAIN else 26
        return len(octets) >= at + 2 and number(octets[at : at + 2]) == self.ssid


class Datagram:
    def __init__(self, fields):
        self.local = fields.number(2)
        self.sender = read_endpoint(fields)
        told, ttl = fields.number(1), fields.number(1)
        require(told in (0, 1))
        require(told or ttl == 0)
        self.ttl = ttl if told else 255
        self.arrival, self.sending = fields.number(8), fields.number(8)
        self.octets = fields.left


# ---- tails


def split(tail):
    """The longest list of whole TLVs, each as its place and octets, and the place of the rest."""
    found, at = [], 0
    while len(tail) - at >= 4:
        length = number(tail[at + 2 : at + 4])
        if at + 4 + length > len(tail):
            break
        found.append((at, tail[at : at + 4 + length]))
        at += 4 + length
    return found, at


def integrity(mode, config, request):
    """'absent', 'failed', or the number of the TLV whose HMAC holds."""
    tail = request[BASE_LENGTHS[mode] :]
    whole, rest = split(tail)
    heads = [tlv[1] for _, tlv in whole]
    if len(tail) - rest >= 4:
        heads.append(tail[rest + 1])
    if not config.keyed:
        return "absent"
    if 8 not in heads:
        return "failed" if mode == AUTHENTICATED and heads not in ([], [1]) else "absent"
    first = heads.index(8)
    if first >= len(whole) or any(kind != 1 for kind in heads[first + 1 :]):
        return "failed"
    at, tlv = whole[first]
    holds = len(tlv) == 20 and tlv[4:] == config.mac(request[:4] + tail[:at])
    return first if holds else "failed"


def flagged_as_failed(tail):
    out = bytearray(tail)
    whole, rest = split(tail)
    for at, _ in whole:
        out[at] |= INTEGRITY_FAILED
    if len(tail) - rest >= 4:
        out[rest] |= INTEGRITY_FAILED
    return bytes(out)


class Path:
    """What the TLVs 9 and 10 of a tail ask for."""

    def __init__(self, local, peer):
        self.sending_local, self.receiver, self.silent = local, peer, False


def own_address(value, datagram, addresses):
    """The lowest own address with this value and the port of the one at which the datagram arrived."""
    if len(value) != (4 if datagram.sender[0] == 4 else 16) or datagram.local >= len(addresses):
        return None
    wanted = datagram.sender[:1] + value + bytes(16 - len(value)) + addresses[datagram.local][17:]
    return addresses.index(wanted) if wanted in addresses else None


def follow(value, datagram, path):
    """Whether a Return Path is followed; where it is, the path becomes what it asks for."""
    whole, rest = split(value)
    if len(whole) != 1 or rest != len(value):
        return False
    kind, inner = value[1], value[4:]
    if kind == 1 and len(inner) == 4:
        path.silent = inner[3] & 1 == 0
        return True
    if kind == 2 and len(inner) == (4 if datagram.sender[0] == 4 else 16):
        path.receiver = datagram.sender[:1] + inner + bytes(16 - len(inner)) + datagram.sender[17:]
        return True
    return False


def answer_tlv(tlv, first_of_type, drawn, config, datagram, addresses, path):
    """The TLV of the reply and whether it is malformed."""
    kind, value = tlv[1], tlv[4:]
    told = lambda flags, octets=value: bytes([flags]) + tlv[1:4] + octets
    if not config.understands(kind):
        return told(UNRECOGNIZED), False
    if kind == 3:
        return (told(0, config.info), False) if len(value) == 4 else (told(MALFORMED), True)
    if kind == 5:
        if len(value) != 12:
            return told(MALFORMED), True
        counts = ((drawn + 1) % 2**32).to_bytes(4, "big") + (drawn % 2**32).to_bytes(4, "big")
        return told(0, value[:4] + counts), False
    if kind in (9, 10) and not first_of_type:
        return told(UNRECOGNIZED), False
    if kind == 9:
        if len(value) not in (4, 16):
            return told(MALFORMED), True
        own = own_address(value, datagram, addresses)
        if own is not None:
            path.sending_local = own
        return told(UNRECOGNIZED if own is None else 0), False
    if kind == 10:
        return told(0 if follow(value, datagram, path) else UNRECOGNIZED), False
    return told(0), False


def answer_tail(session, datagram, drawn, addresses):
    """The tail of the reply, not yet sealed, with the path that it asks for."""
    config, request = session.config, datagram.octets
    tail = request[BASE_LENGTHS[session.mode] :]
    path = Path(datagram.local, datagram.sender)
    found = integrity(session.mode, config, request)
    if found == "failed":
        return flagged_as_failed(tail), path, None
    whole, rest = split(tail)
    out, seen, malformed = bytearray(), set(), False
    for _, tlv in whole:
        if malformed:
            out += tlv
            continue
        answered, malformed = answer_tlv(
            tlv, tlv[1] not in seen, drawn, config, datagram, addresses, path
        )
        seen.add(tlv[1])
        out += answered
    left = bytearray(tail[rest:])
    if len(left) >= 4 and not malformed:
        left[0] = MALFORMED if config.understands(left[1]) else MALFORMED | UNRECOGNIZED
    seal_at = None if found == "absent" else whole[found][0]
    return bytes(out + left), path, seal_at


def sealed(config, reply, tail, at):
    """The tail with its HMAC TLV made anew, over the reply's sequence number and what stands before it."""
    head = bytes([0]) + tail[at + 1 : at + 4]
    return tail[:at] + head + config.mac(reply[:4] + tail[:at]) + tail[at + 20 :]


# ---- replies


def plain_base(session, datagram, drawn, ssid):
    config, request = session.config, datagram.octets
    sequence = (drawn % 2**32).to_bytes(4, "big") if config.stateful else request[:4]
    return (
        sequence + config.timestamp(datagram.sending) + config.error_estimate() + ssid
        + config.timestamp(datagram.arrival) + request[:14] + bytes(2) + bytes([datagram.ttl])
    )


def authenticated_base(session, datagram, drawn):
    config, request = session.config, datagram.octets
    sequence = (drawn % 2**32).to_bytes(4, "big") if config.stateful else request[:4]
    covered = (
        sequence + bytes(12) + config.timestamp(datagram.sending) + config.error_estimate()
        + request[26:28] + bytes(4) + config.timestamp(datagram.arrival) + bytes(8)
        + request[:4] + bytes(12) + request[16:24] + request[24:26] + bytes(6)
        + bytes([datagram.ttl]) + bytes(15)
    )
    return covered + config.mac(covered)


def twamp_reply(session, datagram, drawn):
    request = datagram.octets
    base = 41 if session.symmetrical else 14
    count = min(session.reflected, max(len(request) - base, 0), 65_466)
    reply = plain_base(session, datagram, drawn, bytes(2)) + request[base : base + count]
    return reply + bytes(max(len(request) - len(reply), 0))


def reply_of(session, datagram, addresses):
    """None where no reply is wanted; otherwise the sending local number, the receiver and the octets."""
    drawn = session.count
    if session.mode == TWAMP:
        return datagram.local, datagram.sender, twamp_reply(session, datagram, drawn)
    tail, path, seal_at = answer_tail(session, datagram, drawn, addresses)
    if path.silent:
        return None
    if session.mode == PLAIN:
        reply = plain_base(session, datagram, drawn, datagram.octets[14:16]) + bytes(3)
    else:
        reply = authenticated_base(session, datagram, drawn)
    if seal_at is not None:
        tail = sealed(session.config, reply, tail, seal_at)
    return path.sending_local, path.receiver, reply + tail


# ---- records and answers


def answer(tag, body):
    return bytes([tag]) + len(body).to_bytes(4, "big") + body


class Table:
    """A table of sessions, and the answers that it gives to records."""

    def __init__(self):
        self.sessions = {}
        self.accepted = set()
        self.addresses = []

    def has_no_room_for(self, config):
        return len(self.accepted) >= MOST_CONFIGS and config.octets not in self.accepted

    def open(self, fields):
        key = read_key(fields)
        extra = read_extra(fields, key[2])
        config = Config(fields)
        fields.end()
        return answer(0x81, bytes([self.open_code(key, extra, config)]))

    def open_code(self, key, extra, config):
        local, sender, mode, _ = key
        if key in self.sessions:
            return 1
        if any(k[:2] == (local, sender) and k[2] != mode for k in self.sessions):
            return 2
        if mode == AUTHENTICATED and not config.keyed:
            return 5
        if self.has_no_room_for(config):
            return 4
        if len(self.sessions) >= MOST_SESSIONS:
            return 3
        self.accepted.add(config.octets)
        self.sessions[key] = Session(key, extra, config)
        return 0

    def set(self, fields):
        key, config = read_key(fields), Config(fields)
        fields.end()
        return answer(0x82, bytes([self.set_code(key, config)]))

    def set_code(self, key, config):
        if key not in self.sessions:
            return 6
        if key[2] == AUTHENTICATED and not config.keyed:
            return 5
        if self.has_no_room_for(config):
            return 4
        self.accepted.add(config.octets)
        self.sessions[key].config = config
        return 0

    def close(self, fields):
        key = read_key(fields)
        fields.end()
        if key not in self.sessions:
            return answer(0x83, bytes([6]))
        return answer(0x83, bytes(1) + (self.sessions.pop(key).count % 2**32).to_bytes(4, "big"))

    def list(self, fields):
        count = fields.number(1)
        require(count <= 16)
        addresses = [read_endpoint(fields) for _ in range(count)]
        fields.end()
        require(len(set(addresses)) == count)
        require(all(number(address[17:]) != 0 for address in addresses))
        self.addresses = addresses
        return answer(0x85, bytes(1))

    def datagram(self, fields):
        datagram = Datagram(fields)
        matching = [
            s for s in self.sessions.values()
            if s.matches(datagram.local, datagram.sender, datagram.octets)
        ]
        assert len(matching) <= 1, "two sessions match"
        if not matching:
            return answer(0x84, bytes([1]))
        session, octets = matching[0], datagram.octets
        if len(octets) < BASE_LENGTHS[session.mode]:
            return answer(0x84, bytes([2]))
        if session.mode == AUTHENTICATED and octets[96:112] != session.config.mac(octets[:96]):
            return answer(0x84, bytes([3]))
        reply = reply_of(session, datagram, self.addresses)
        if reply is None:
            return answer(0x84, bytes([7]))
        local, receiver, sent = reply
        told = local.to_bytes(2, "big") + receiver + (session.count % 2**32).to_bytes(4, "big")
        session.count += 1
        return answer(0x84, bytes(1) + told + sent)


def body_length_is_allowed(tag, length):
    return {
        OPEN: length == 103,
        SET: length == 100,
        CLOSE: length == 24,
        DATAGRAM: 39 <= length <= 65_546,
        LOCALS: 1 <= length <= 305,
    }.get(tag, False)


def replay(stream):
    """What is written for a stream, and the exit status."""
    table, out, at = Table(), [], 0
    take = {
        OPEN: table.open, SET: table.set, CLOSE: table.close,
        DATAGRAM: table.datagram, LOCALS: table.list,
    }
    while at < len(stream):
        try:
            fields = Octets(stream[at:])
            tag, length = fields.number(1), fields.number(4)
            require(body_length_is_allowed(tag, length))
            require(at + 5 + length <= STREAM_LIMIT)
            out.append(take[tag](Octets(fields.take(length))))
        except GrammarLeft:
            out.append(answer(0xFF, at.to_bytes(8, "big")))
            return b"".join(out), 6
        at += 5 + length
    return b"".join(out), 0
