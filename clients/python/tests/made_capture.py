"""Captures that are made up: packets with the headers of links, in fragments or whole, in pcap and pcapng."""
from __future__ import annotations

import socket
import struct
from collections.abc import Sequence
from typing import NamedTuple

BEGIN_US = 1_700_000_000_000_000
"""When captures begin, in microseconds since 1970."""
ETHERNET, RAW_IP, COOKED, COOKED_2 = 1, 101, 113, 276


class Caught(NamedTuple):
    """A packet, and how many microseconds after the beginning it was captured."""

    after_us: int
    data: bytes


def ip(source: str, dest: str, body: bytes, number: int = 1, place: int = 0, protocol: int = 17) -> bytes:
    """An IPv4 packet, whose header has no check. `place` is the flags and the offset of a fragment."""
    head = struct.pack(">BBHHHBBH", 0x45, 0, 20 + len(body), number, place, 64, protocol, 0)
    return head + socket.inet_aton(source) + socket.inet_aton(dest) + body


def udp(data: bytes, dest_port: int, source_port: int = 17224) -> bytes:
    """A UDP datagram without a check sum."""
    return struct.pack(">4H", source_port, dest_port, 8 + len(data), 0) + data


def in_fragments(source: str, dest: str, body: bytes, size: int) -> list[bytes]:
    """IPv4 packets that are fragments with so many bytes of a body each, a multiple of 8."""
    parts = [(it, body[it:it + size]) for it in range(0, len(body), size)]
    return [ip(source, dest, part, 7, it // 8 | (0x2000 if it + size < len(body) else 0)) for it, part in parts]


def ethernet(packet: bytes, *tags: int) -> bytes:
    """An Ethernet frame around an IPv4 packet, with VLAN tags of these types, filled up to 60 bytes."""
    kinds = b"".join(struct.pack(">2H", it, 5) for it in tags)
    return (bytes(12) + kinds + b"\x08\x00" + packet).ljust(60, b"\xee")


def cooked(packet: bytes) -> bytes:
    """A packet of a Linux cooked capture around an IPv4 packet."""
    return struct.pack(">3H8sH", 0, 1, 6, bytes(8), 0x0800) + packet


def cooked_2(packet: bytes) -> bytes:
    """The same of a Linux cooked capture of version 2."""
    return struct.pack(">HHIHBB8s", 0x0800, 0, 1, 1, 0, 6, bytes(8)) + packet


def pcap(link: int, caught: Sequence[Caught], order: str = "<", parts: int = 1_000_000) -> bytes:
    """A capture in pcap, whose times count parts of a second."""
    magic = 0xA1B2C3D4 if parts == 1_000_000 else 0xA1B23C4D
    found = [struct.pack(f"{order}IHHiIII", magic, 2, 4, 0, 0, 262144, link)]
    for after_us, data in caught:
        seconds, rest = divmod(BEGIN_US + after_us, 1_000_000)
        found += [struct.pack(f"{order}4I", seconds, rest * parts // 1_000_000, len(data), len(data)), data]
    return b"".join(found)


def block(order: str, kind: int, body: bytes) -> bytes:
    """A block of a pcapng file."""
    body += bytes(-len(body) % 4)
    length = struct.pack(f"{order}I", 12 + len(body))
    return struct.pack(f"{order}I", kind) + length + body + length


def pcapng(link: int, caught: Sequence[Caught], order: str = "<", parts_exponent: int = 6) -> bytes:
    """A capture in pcapng with one section and one interface, whose times count parts of a second, a power of ten."""
    option = struct.pack(f"{order}HHB3xHH", 9, 1, parts_exponent, 0, 0)
    found = [block(order, 0x0A0D0D0A, struct.pack(f"{order}IHHq", 0x1A2B3C4D, 1, 0, -1)),
             block(order, 1, struct.pack(f"{order}HHI", link, 0, 0) + option),
             block(order, 5, bytes(12))]  # one of statistics, which has no packet
    for after_us, data in caught:
        time = (BEGIN_US + after_us) * 10 ** parts_exponent // 1_000_000
        head = struct.pack(f"{order}5I", 0, time >> 32, time & 0xFFFFFFFF, len(data), len(data))
        found.append(block(order, 6, head + data))
    return b"".join(found)
