# SPDX-License-Identifier: Apache-2.0
"""Octets as text: hexadecimal digits, COUNT*DIGITS for repetition, and # before a remark."""


def octets(text):
    """The octets that a text stands for."""
    out = bytearray()
    for line in text.splitlines():
        for word in line.split("#")[0].split():
            count, star, digits = word.partition("*")
            if star:
                out += bytes.fromhex(digits) * int(count)
            else:
                out += bytes.fromhex(word)
    return bytes(out)
