# SPDX-License-Identifier: Apache-2.0
"""Reads UDP datagrams from a capture, and writes some to one: pcap, and for reading pcapng too."""

import ipaddress
import struct
from typing import NamedTuple

ETHERNET, RAW_IP, LINUX_COOKED, LINUX_COOKED_2 = 1, 101, 113, 276
NANOSECOND_PCAP = 0xA1B23C4D
MICROSECOND_PCAP = 0xA1B2C3D4
PCAPNG_SECTION = 0x0A0D0D0A
BYTE_ORDER = 0x1A2B3C4D
UDP = 17


class CaptureFault(Exception):
    """The file isn't a capture that can be read."""


class Endpoint(NamedTuple):
    address: bytes  # 4 or 16 octets
    port: int

    def __str__(self):
        host = ipaddress.ip_address(self.address)
        return f"{host}:{self.port}" if host.version == 4 else f"[{host}]:{self.port}"


class Datagram(NamedTuple):
    moment: int  # nanoseconds since the start of 1970
    source: Endpoint
    destination: Endpoint
    ttl: int
    octets: bytes


# ---- reading


def read(octets):
    """The whole UDP datagrams of a capture, in its order. Fragments and frames that were cut short are left out."""
    try:
        for link, moment, frame in frames(octets):
            found = in_frame(link, moment, frame)
            if found is not None:
                yield found
    except (IndexError, struct.error):
        raise CaptureFault("a block of the capture is damaged") from None


def frames(octets):
    if len(octets) < 24:
        raise CaptureFault("the file is too short for a capture")
    for order in "<>":
        magic = struct.unpack_from(order + "I", octets)[0]
        if magic in (MICROSECOND_PCAP, NANOSECOND_PCAP):
            return pcap_frames(octets, order, 1 if magic == NANOSECOND_PCAP else 1000)
    if struct.unpack_from("<I", octets)[0] == PCAPNG_SECTION:
        return pcapng_frames(octets)
    raise CaptureFault("the file is neither pcap nor pcapng")


def pcap_frames(octets, order, unit):
    link = struct.unpack_from(order + "I", octets, 20)[0] & 0xFFFF
    at = 24
    while at + 16 <= len(octets):
        seconds, parts, kept, whole = struct.unpack_from(order + "IIII", octets, at)
        frame = octets[at + 16 : at + 16 + kept]
        if len(frame) == kept == whole:
            yield link, seconds * 10**9 + parts * unit, frame
        at += 16 + kept


def pcapng_frames(octets):
    order, interfaces, at = "<", [], 0
    while at + 12 <= len(octets):
        if octets[at : at + 4] == PCAPNG_SECTION.to_bytes(4, "big"):
            order = "<" if struct.unpack_from("<I", octets, at + 8)[0] == BYTE_ORDER else ">"
            interfaces = []
        kind, length = struct.unpack_from(order + "II", octets, at)
        if length < 12 or at + length > len(octets):
            raise CaptureFault("a block of the capture is cut short")
        body = octets[at + 8 : at + length - 4]
        if kind == 1:
            interfaces.append((struct.unpack_from(order + "H", body)[0], resolution(order, body[8:])))
        elif kind == 6:
            number, high, low, kept, whole = struct.unpack_from(order + "IIIII", body)
            link, ticks = interfaces[number]
            if kept == whole:
                yield link, (high << 32 | low) * 10**9 // ticks, body[20 : 20 + kept]
        at += length


def resolution(order, options):
    """Ticks in a second: option 9 of an interface, else a million."""
    while len(options) >= 4:
        code, length = struct.unpack_from(order + "HH", options)
        if code == 9:
            power = options[4]
            return 2 ** (power & 127) if power & 128 else 10**power
        options = options[4 + (length + 3) // 4 * 4 :]
    return 10**6


def in_frame(link, moment, frame):
    """The datagram in a frame, if it has a whole one."""
    if link == ETHERNET:
        kind, packet = int.from_bytes(frame[12:14], "big"), frame[14:]
        while kind in (0x8100, 0x88A8):
            kind, packet = int.from_bytes(packet[2:4], "big"), packet[4:]
    elif link == LINUX_COOKED:
        kind, packet = int.from_bytes(frame[14:16], "big"), frame[16:]
    elif link == LINUX_COOKED_2:
        kind, packet = int.from_bytes(frame[0:2], "big"), frame[20:]
    elif link == RAW_IP:
        kind, packet = {4: 0x0800, 6: 0x86DD}.get(frame[0] >> 4 if frame else 0), frame
    else:
        raise CaptureFault(f"frames of link type {link} aren't read")
    if kind == 0x0800:
        return in_ipv4(moment, packet)
    return in_ipv6(moment, packet) if kind == 0x86DD else None


def in_ipv4(moment, packet):
    if len(packet) < 20 or packet[9] != UDP or int.from_bytes(packet[6:8], "big") & 0x3FFF:
        return None
    total = int.from_bytes(packet[2:4], "big")
    udp = packet[(packet[0] & 15) * 4 : total]
    return in_udp(moment, packet[12:16], packet[16:20], packet[8], udp)


def in_ipv6(moment, packet):
    if len(packet) < 40 or packet[6] != UDP:
        return None
    udp = packet[40 : 40 + int.from_bytes(packet[4:6], "big")]
    return in_udp(moment, packet[8:24], packet[24:40], packet[7], udp)


def in_udp(moment, source, destination, ttl, udp):
    if len(udp) < 8:
        return None
    source_port, destination_port, length = struct.unpack_from(">HHH", udp)
    if length < 8 or length > len(udp):
        return None
    return Datagram(
        moment, Endpoint(source, source_port), Endpoint(destination, destination_port), ttl, udp[8:length]
    )


# ---- writing


def write(datagrams):
    """A capture of raw IP packets with moments in nanoseconds."""
    return write_packets((datagram.moment, packet_of(datagram)) for datagram in datagrams)


def write_packets(packets):
    """The same, of packets with their moments."""
    head = struct.pack("<IHHiIII", NANOSECOND_PCAP, 2, 4, 0, 0, 262_144, RAW_IP)
    return head + b"".join(frame_of(*each) for each in packets)


def frame_of(moment, packet):
    seconds, nanoseconds = divmod(moment, 10**9)
    return struct.pack("<IIII", seconds % 2**32, nanoseconds, len(packet), len(packet)) + packet


def packet_of(datagram):
    source, destination = datagram.source, datagram.destination
    length = 8 + len(datagram.octets)
    ports = struct.pack(">HHH", source.port, destination.port, length)
    pseudo = source.address + destination.address + struct.pack(">IHH", length, 0, UDP)
    checked = checksum(pseudo + ports + bytes(2) + datagram.octets) or 0xFFFF
    udp = ports + struct.pack(">H", checked) + datagram.octets
    if len(source.address) == 16:
        head = struct.pack(">IHBB", 6 << 28, length, UDP, datagram.ttl)
        return head + source.address + destination.address + udp
    head = struct.pack(">BBHIBBH", 0x45, 0, 20 + length, 0, datagram.ttl, UDP, 0)
    head += source.address + destination.address
    return head[:10] + struct.pack(">H", checksum(head)) + head[12:] + udp


def checksum(octets):
    """The Internet checksum (RFC 1071)."""
    octets += bytes(len(octets) % 2)
    total = sum(struct.unpack(f">{len(octets) // 2}H", octets))
    while total >> 16:
        total = (total & 0xFFFF) + (total >> 16)
    return total ^ 0xFFFF
