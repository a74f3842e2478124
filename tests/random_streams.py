# SPDX-License-Identifier: Apache-2.0
"""Random replay streams: mostly sessions and datagrams that meet, and some that leave the format."""

import hashlib
import hmac

from records import record

KINDS = (0, 1, 2, 3, 4, 5, 6, 7, 8, 9, 10, 11, 200)
ANSWERED_KINDS = (3, 5, 9, 10)
MODES = (0, 1, 2)
LENGTHS = (44, 112, 14)
EDGES = (0, 1, 2**31, 2**32 - 1, 2**63, 2**64 - 1, 999_999_999, 10**9)


def endpoint(random):
    if random.random() < 0.6:
        address = b"\4" + bytes([192, 0, 2, random.randrange(4)]) + bytes(12)
    else:
        address = b"\6\x20\x01" + bytes(13) + bytes([random.randrange(4)])
    return address + random.choice((0, 862, 5000, 65535)).to_bytes(2, "big")


def key_block(random):
    if random.random() < 0.4:
        return None
    return bytes([random.randrange(3)]) * random.choice((1, 16, 64)) or None


class Stream:
    """Makes the records of one stream, knowing which sessions it opened."""

    def __init__(self, random):
        self.random = random
        self.senders = [endpoint(random) for _ in range(random.randint(1, 3))]
        self.addresses = []
        self.keys = []

    def config(self):
        random = self.random
        block = key_block(random)
        flags = random.choice((0, 1, 1, 1)) | random.choice((0, 2)) | random.choice((0, 8))
        tlvs = sum(1 << kind for kind in ANSWERED_KINDS if random.random() < 0.75)
        octets = bytes([flags | (4 if block else 0), random.choice((0, 37, 255)), random.randrange(64)])
        octets += bytes([random.randint(1, 255)]) + random.randbytes(4) + tlvs.to_bytes(4, "big")
        return octets + (block or b"").ljust(64, b"\0")

    def key(self):
        random = self.random
        mode = random.choice(MODES)
        ssid = 0 if mode == 2 else random.choice((0, 7, 65535))
        local = random.choice((0, 0, 1, 2, 65535)).to_bytes(2, "big")
        return local + random.choice(self.senders) + bytes([mode]) + ssid.to_bytes(2, "big")

    def some_key(self):
        return self.random.choice(self.keys)[0] if self.keys and self.random.random() < 0.8 else self.key()

    def opening(self):
        random = self.random
        key, config = self.key(), self.config()
        extra = bytes(3)
        if key[21] == 2:
            extra = bytes([random.randrange(2)]) + random.choice((0, 1, 27, 1000, 65535)).to_bytes(2, "big")
        self.keys.append((key, config))
        return record(1, key + extra + config)

    def setting(self):
        key, config = self.some_key(), self.config()
        self.keys = [(k, config if k == key else c) for k, c in self.keys]
        return record(2, key + config)

    def closing(self):
        return record(3, self.some_key())

    def listing(self):
        random = self.random
        found = []
        for _ in range(random.randrange(5)):
            address = endpoint(random)
            if address not in found and address[17:] != bytes(2):
                found.append(address)
        self.addresses = found
        return record(5, bytes([len(found)]) + b"".join(found))

    # ---- datagrams

    def moment(self):
        random = self.random
        return random.choice(EDGES) if random.random() < 0.3 else random.randrange(2**61)

    def value(self, kind):
        random = self.random
        if kind == 9 and self.addresses and random.random() < 0.7:
            address = random.choice(self.addresses)
            return address[1:5] if address[0] == 4 else address[1:17]
        if kind == 10:
            inner = random.choice((1, 1, 2, 3))
            length = random.choice((4, 4, 16, 0))
            value = bytes([0, inner]) + length.to_bytes(2, "big") + random.randbytes(length)
            return value + (value if random.random() < 0.1 else b"") + bytes(random.choice((0, 0, 0, 2)))
        wanted = {3: 4, 5: 12, 8: 16, 9: 4}.get(kind, random.randrange(9))
        if random.random() < 0.15:
            wanted = random.randrange(20)
        return random.randbytes(wanted)

    def tlv(self, kind):
        value = self.value(kind)
        flags = self.random.choice((0, 0x80, 0x80, 0xE0, 0x20))
        return bytes([flags, kind]) + len(value).to_bytes(2, "big") + value

    def tail(self, config, request):
        random = self.random
        if random.random() < 0.25:
            return b""
        kinds = [random.choice(random.choice((KINDS, ANSWERED_KINDS))) for _ in range(random.randrange(5))]
        out = b"".join(self.tlv(kind) for kind in kinds)
        if config[0] & 4 and random.random() < 0.7:
            value = hmac.new(config[12:], request[:4] + out, hashlib.sha256).digest()[:16]
            if random.random() < 0.1:
                value = bytes(16)
            out += bytes([random.choice((0, 0x80)), 8, 0, 16]) + value
            out += b"".join(self.tlv(1) for _ in range(random.choice((0, 0, 1, 2))))
        if random.random() < 0.2:
            out += random.choice((b"\0", b"\0\1\0", b"\0\3\0\4", b"\0\x08\0\x20" + bytes(9), b"\x80\7\xff\xff"))
        return out

    def request(self, key, config):
        random = self.random
        mode, ssid = key[21], key[22:24]
        base = random.randbytes(LENGTHS[mode])
        if mode == 2:
            return base + random.randbytes(random.choice((0, 1, 26, 27, 28, 100, 1000)))
        at = 14 if mode == 0 else 26
        base = base[:at] + ssid + base[at + 2 :]
        if mode == 1 and config[0] & 4:
            base = base[:96] + hmac.new(config[12:], base[:96], hashlib.sha256).digest()[:16]
        return base + self.tail(config, base)

    def datagram(self):
        random = self.random
        if self.keys and random.random() < 0.95:
            key, config = random.choice(self.keys)
        else:
            key, config = self.key(), self.config()
        octets = self.request(key, config)
        if random.random() < 0.1:
            octets = octets[: random.randrange(len(octets) + 1)]
        if octets and random.random() < 0.05:
            octets = changed(random, octets)
        ttl = random.choice((b"\0\0", b"\1\0", b"\1\x40", b"\1\xff"))
        moments = self.moment().to_bytes(8, "big") + self.moment().to_bytes(8, "big")
        return record(4, key[:21] + ttl + moments + octets)

    def faulty(self):
        """A record with a field that the format doesn't allow, beside others that it does."""
        random = self.random
        ends, config = bytes(2) + random.choice(self.senders), self.config()
        address = b"\4\xc0\0\2\1" + bytes(12)
        return random.choice((
            record(1, ends + b"\0\0\7" + random.choice((b"\1\0\0", b"\0\0\1")) + config),
            record(1, ends + b"\2\0\0" + b"\2\0\0" + config),
            record(1, ends + b"\2\0\7" + bytes(3) + config),
            record(2, ends + b"\0\0\7" + config[:2] + b"\x40" + config[3:]),
            record(2, ends + b"\0\0\7" + config[:3] + b"\0" + config[4:]),
            record(2, ends + b"\0\0\7" + config[:8] + b"\0\0\0\1" + config[12:]),
            record(2, ends + b"\0\0\7" + bytes([config[0] & ~4]) + config[1:12] + b"\1" + bytes(63)),
            record(4, ends + b"\0\1" + bytes(60)),
            record(4, ends + b"\2\0" + bytes(60)),
            record(5, b"\2" + 2 * (address + b"\3\x5e")),
            record(5, b"\1" + address + bytes(2)),
            record(5, b"\2" + address + b"\3\x5e"),
            record(5, b"\x11" + b"".join(address + bytes([3, last]) for last in range(17))),
        ))

    def records(self):
        random = self.random
        makers = (self.opening, self.setting, self.closing, self.listing, self.datagram)
        weights = (4, 2, 1, 2, 12)
        first = [self.listing(), self.opening()]
        return first + [maker() for maker in random.choices(makers, weights, k=random.randrange(25))]


def changed(random, octets):
    """The same but for one octet."""
    at = random.randrange(len(octets))
    return octets[:at] + bytes([random.randrange(256)]) + octets[at + 1 :]


def stream(random):
    """Records one after the other. In one case of six one is faulty, has another octet, or is cut off."""
    maker = Stream(random)
    pieces = maker.records()
    if random.random() < 1 / 20:
        pieces.insert(random.randrange(1, len(pieces) + 1), maker.faulty())
    elif random.random() < 1 / 8:
        at = random.randrange(len(pieces))
        if random.random() < 0.5:
            # Near the front of a record, where its tag, length and fields stand.
            front = random.randrange(1, 40)
            pieces[at] = changed(random, pieces[at][:front]) + pieces[at][front:]
        else:
            pieces = pieces[:at] + [pieces[at][: random.randrange(len(pieces[at]))]]
    return pieces
