# SPDX-License-Identifier: Apache-2.0
"""Replay records, and the answers to them, by the tables of their formats."""

import hashlib
import hmac

KEY = bytes(range(1, 17)) + bytes(48)
PLAIN, AUTHENTICATED, TWAMP = 0, 1, 2
PEER = bytes.fromhex("04C0000201") + bytes(12) + bytes.fromhex("1388")
ENDS = bytes(2) + PEER
ARRIVAL = 0
SENT = 999_999_999
RECEIVE_TIMESTAMP = bytes.fromhex("83AA7E8000000000")
TIMESTAMP = bytes.fromhex("83AA7E80FFFFFFFB")
PLAIN_REQUEST = bytes.fromhex("00000005 1122334455667788 0001 0007") + bytes(28)
TWAMP_REQUEST = PLAIN_REQUEST[:14]
NO_SESSION, SHORT, BAD_HMAC = 1, 2, 3
DUPLICATE, MODE_CLASH, FULL, ROWS_FULL, NO_KEY, NO_SUCH = 1, 2, 3, 4, 5, 6


def record(tag, body):
    return bytes([tag]) + len(body).to_bytes(4, "big") + body


def mac(octets):
    """HMAC-SHA-256 under the key, cut to its first 16 octets."""
    return hmac.new(KEY, octets, hashlib.sha256).digest()[:16]


def opening(mode=PLAIN, ssid=7, ends=ENDS, extra=bytes(3), flags=1, rest=None, key=bytes(64)):
    """An Open: a stateful NTP session with multiplier 1, where nothing else is said."""
    return record(1, session_key(mode, ssid, ends) + extra + config(flags, rest, key))


def session_key(mode=PLAIN, ssid=7, ends=ENDS):
    return ends + bytes([mode]) + ssid.to_bytes(2, "big")


def config(flags=1, rest=None, key=bytes(64)):
    return bytes([flags]) + (rest or bytes.fromhex("00 00 01 00000000 00000000")) + key


def informed(number):
    """What stands behind the flags of a configuration whose Timestamp Information is this number."""
    return bytes.fromhex("00 00 01") + number.to_bytes(4, "big") + bytes(4)


def setting(mode=PLAIN, ssid=7, ends=ENDS, flags=1, rest=None, key=bytes(64)):
    """A Set, of the configuration that an Open has where nothing else is said."""
    return record(2, session_key(mode, ssid, ends) + config(flags, rest, key))


def closing(mode=PLAIN, ssid=7, ends=ENDS):
    return record(3, session_key(mode, ssid, ends))


def local(last, port=862):
    """An address of the reflector's own, 192.0.2.LAST."""
    return b"\4\xc0\0\2" + bytes([last]) + bytes(12) + port.to_bytes(2, "big")


def listing(*locals_given):
    return record(5, bytes([len(locals_given)]) + b"".join(locals_given))


def datagram(packet, ends=ENDS, ttl=b"\0\0"):
    return record(4, ends + ttl + ARRIVAL.to_bytes(8, "big") + SENT.to_bytes(8, "big") + packet)


def opened(code=0):
    return record(0x81, bytes([code]))


def was_set(code=0):
    return record(0x82, bytes([code]))


def closed(count=None):
    """The answer to a Close; None is that no session has the key."""
    return record(0x83, bytes([NO_SUCH]) if count is None else b"\0" + count.to_bytes(4, "big"))


def listed():
    return record(0x85, b"\0")


def silent(code):
    return record(0x84, bytes([code]))


def reflected(number, packet, ends=ENDS):
    return record(0x84, b"\0" + ends + number.to_bytes(4, "big") + packet)


def grammar_left(offset):
    return record(0xFF, offset.to_bytes(8, "big"))


def plain_reply(number, tail=b"", ssid=7):
    """The reply to the plain request with a tail of these octets, RFC 8762, section 4.3.1."""
    return (
        number.to_bytes(4, "big") + TIMESTAMP + b"\0\1" + ssid.to_bytes(2, "big")
        + RECEIVE_TIMESTAMP + PLAIN_REQUEST[:14] + bytes(2) + b"\xff" + bytes(3) + tail
    )


def authenticated_request():
    body = PLAIN_REQUEST[:4] + bytes(12) + PLAIN_REQUEST[4:16] + bytes(68)
    return body + mac(body)


def authenticated_reply(number):
    """The reply to the authenticated request, RFC 8762, section 4.3.2."""
    body = (
        number.to_bytes(4, "big") + bytes(12) + TIMESTAMP + b"\0\1\0\7" + bytes(4)
        + RECEIVE_TIMESTAMP + bytes(8) + PLAIN_REQUEST[:4] + bytes(12) + PLAIN_REQUEST[4:14]
        + bytes(6) + b"\xff" + bytes(15)
    )
    return body + mac(body)


def twamp_reply(number, padding=b""):
    """The reply to the TWAMP-Test request, RFC 5357, section 4.2.1."""
    return (
        number.to_bytes(4, "big") + TIMESTAMP + b"\0\1" + bytes(2)
        + RECEIVE_TIMESTAMP + TWAMP_REQUEST + bytes(2) + b"\xff" + padding
    )
