# SPDX-License-Identifier: Apache-2.0
"""A configuration of sessions, as the operator's lines have it."""

import hashlib
from typing import NamedTuple

BLOCK = 64  # octets of HMAC-SHA-256


class Configuration(NamedTuple):
    """The fields and defaults are those of a configuration in the file; `key` and `info` are octets."""

    stateful: bool = True
    format: str = "ntp"
    offset: int = 0
    synced: bool = False
    scale: int = 0
    multiplier: int = 1
    key: bytes | None = None
    info: bytes = bytes(4)
    tlvs: tuple = (3, 5)

    @classmethod
    def of_table(cls, table):
        """A configuration of a file that has no fault."""
        fields = dict(table)
        for name in fields.keys() & {"key", "info"}:
            fields[name] = bytes.fromhex(fields[name])
        return cls(**fields)

    def octets(self):
        """The 76 octets that docs/FORMATS.md of the sources tells. The tool is installed alone, so it has them here."""
        has_key = self.key is not None
        flags = self.stateful | (self.format == "ptp") << 1 | has_key << 2 | self.synced << 3
        key = self.key or b""
        block = hashlib.sha256(key).digest() if len(key) > BLOCK else key
        tlvs = sum(1 << kind for kind in self.tlvs)
        head = bytes([flags, self.offset, self.scale, self.multiplier])
        return head + self.info + tlvs.to_bytes(4, "big") + block.ljust(BLOCK, b"\0")

    def name(self):
        """A name for this content and no other: a daemon keeps a name until it ends, whatever becomes of the file."""
        return hashlib.sha256(self.octets()).hexdigest()[:16]
