# SPDX-License-Identifier: Apache-2.0
"""Words of the command line. What isn't one is an ArgumentTypeError, which argparse tells with the name of the word."""

import argparse
import ipaddress
import re

NAME = re.compile(r"[a-z0-9_-]{1,16}")
HOST_NAME = re.compile(r"(?=.*[A-Za-z])[A-Za-z0-9_-]+(\.[A-Za-z0-9_-]+)*\.?")
MODES = ("plain", "auth", "twamp")
TLV_TYPES = (3, 5, 9, 10)


def exact_endpoint(text):
    """An address and a port in the one spelling that the daemon reads. A ValueError where they are none."""
    host, colon, port = text.rpartition(":")
    address = ipaddress.ip_address(host.removeprefix("[").removesuffix("]"))
    if not colon or "%" in host or not (port.isascii() and port.isdigit()) or not 1 <= int(port) <= 65_535:
        raise ValueError(text)
    return f"[{address.exploded}]:{int(port)}" if address.version == 6 else f"{address}:{int(port)}"


def endpoint(text):
    try:
        return exact_endpoint(text)
    except ValueError:
        raise argparse.ArgumentTypeError(f"{text!r} is no address with a port") from None


def server(text):
    """An endpoint, or the name of a host with a port: name and port as they are."""
    name, _, port = text.rpartition(":")
    if HOST_NAME.fullmatch(name) and port.isascii() and port.isdigit() and 1 <= int(port) <= 65_535:
        return f"{name}:{int(port)}"
    try:
        return endpoint(text)
    except argparse.ArgumentTypeError:
        raise argparse.ArgumentTypeError(f"{text!r} is neither an address nor a name of a host, with a port") from None


def host_and_port(text):
    """What the calls of the system want of a server or an endpoint."""
    host, _, port = text.rpartition(":")
    return host.removeprefix("[").removesuffix("]"), int(port)


def is_ipv6(text):
    """Whether an endpoint is one of IPv6."""
    return text.startswith("[")


def name(text):
    """The name of a configuration."""
    if not NAME.fullmatch(text):
        raise argparse.ArgumentTypeError(f"{text!r} is no name: 1 to 16 of a to z, the digits, _ and -")
    return text


def number(low, high):
    """A number within a range."""

    def read(text):
        if not text.isascii() or not text.isdigit() or not low <= int(text) <= high:
            raise argparse.ArgumentTypeError(f"{text!r} is no number from {low} to {high}")
        return int(text)

    return read


def octets(low, high):
    """So many octets in hexadecimal."""

    def read(text):
        try:
            found = bytes.fromhex(text)
        except ValueError:
            raise argparse.ArgumentTypeError(f"{text!r} isn't hexadecimal") from None
        if not low <= len(found) <= high:
            raise argparse.ArgumentTypeError(f"{len(found)} octets, in place of {low} to {high}")
        return found

    return read


def tlv_types(text):
    """A list of TLV types with commas, each once; none where the text is empty."""
    found = text.split(",") if text else []
    if not set(found) <= set(map(str, TLV_TYPES)):
        raise argparse.ArgumentTypeError(f"{text!r} isn't a list of 3, 5, 9 and 10")
    return [int(kind) for kind in dict.fromkeys(found)]
