"""Captures: the packets of a file in pcap or pcapng, one after the other, while it is read."""
from __future__ import annotations

import struct
from collections.abc import Iterator
from dataclasses import dataclass
from typing import BinaryIO, NamedTuple

PACKET_MOST = 1 << 24
"""The most bytes of a packet or a block: a file that says more is damaged."""

# The first four bytes of a pcap file: the order of its bytes, and how many parts of a second its times count.
PCAP_MAGICS = {
    b"\xa1\xb2\xc3\xd4": (">", 1_000_000), b"\xd4\xc3\xb2\xa1": ("<", 1_000_000),
    b"\xa1\xb2\x3c\x4d": (">", 1_000_000_000), b"\x4d\x3c\xb2\xa1": ("<", 1_000_000_000),
}
SECTION, INTERFACE, OLD_PACKET, SIMPLE_PACKET, PACKET = 0x0A0D0D0A, 1, 2, 3, 6
SECTION_ORDERS = {b"\x1a\x2b\x3c\x4d": ">", b"\x4d\x3c\x2b\x1a": "<"}
END_OF_OPTIONS, IF_TSRESOL, IF_TSOFFSET = 0, 9, 14


TIME_MOST_US = 1 << 53
"""The latest time of a packet, in the year 2255: up to it each microsecond is a number of JavaScript."""


class Packet(NamedTuple):
    """A packet of a capture: when it was captured, in microseconds since 1970, the type of its link, and its bytes."""

    time_us: int
    link: int
    data: bytes


class NoCapture(ValueError):
    """What is read is no capture, or one that is damaged. The text says why."""


class CutOff(Exception):
    """The capture ends within a packet, as one does that is interrupted."""


def read(stream: BinaryIO, size: int) -> bytes:
    """That many bytes of a capture. Raises CutOff if it ends before."""
    data = stream.read(size)
    if len(data) < size:
        raise CutOff
    return data


def packets(stream: BinaryIO) -> Iterator[Packet]:
    """The packets of a capture, each as soon as it is there. Raises NoCapture, and OSError."""
    for packet in packets_of_any_time(stream):
        if not 0 <= packet.time_us <= TIME_MOST_US:
            raise NoCapture(f"this capture is damaged: a packet {packet.time_us} microseconds after 1970")
        yield packet


def packets_of_any_time(stream: BinaryIO) -> Iterator[Packet]:
    """The same, also of times that no clock shows."""
    magic = stream.read(4)
    try:
        if magic in PCAP_MAGICS:
            yield from pcap_packets(stream, *PCAP_MAGICS[magic])
        elif magic == SECTION.to_bytes(4, "big"):
            yield from PcapngReader(stream).packets()
        else:
            raise NoCapture("this is no capture in pcap or pcapng" if magic else "this is empty, and no capture")
    except CutOff:
        return


def pcap_packets(stream: BinaryIO, order: str, parts: int) -> Iterator[Packet]:
    """The packets of a pcap file behind its first four bytes."""
    link = struct.unpack(f"{order}16xI", read(stream, 20))[0] & 0xFFFF
    head = struct.Struct(f"{order}4I")
    while True:
        seconds, part, length, _ = head.unpack(read(stream, head.size))
        if length > PACKET_MOST:
            raise NoCapture(f"this capture is damaged: a packet of {length} bytes")
        yield Packet(seconds * 1_000_000 + part * 1_000_000 // parts, link, read(stream, length))


@dataclass
class Interface:
    """An interface of a pcapng file: the type of its link, the parts of a second that its times count, and the seconds
    that are added to each."""

    link: int
    parts: int = 1_000_000
    offset: int = 0

    def time_us(self, high: int, low: int) -> int:
        """The time of a packet in microseconds since 1970."""
        return (high << 32 | low) * 1_000_000 // self.parts + self.offset * 1_000_000


class PcapngReader:
    """Reads the blocks of a pcapng file behind its first four bytes, which begin a section."""

    def __init__(self, stream: BinaryIO) -> None:
        self.stream = stream
        self.order = "<"
        self.interfaces: list[Interface] = []
        self.latest_us = 0  # the time of the latest packet: a simple one has none

    def packets(self) -> Iterator[Packet]:
        """The packets of all sections."""
        kind = SECTION
        while True:
            if kind == SECTION:
                self.begin_section()
            else:
                found = self.read_block(kind)
                if found is not None:
                    self.latest_us = found.time_us
                    yield found
            kind, = struct.unpack(f"{self.order}I", read(self.stream, 4))

    def begin_section(self) -> None:
        """Reads the head of a section, which says in which order its bytes are."""
        length, magic = read(self.stream, 4), read(self.stream, 4)
        if magic not in SECTION_ORDERS:
            raise NoCapture("this capture is damaged: a section has no order of bytes")
        self.order = SECTION_ORDERS[magic]
        self.interfaces = []
        self.body(struct.unpack(f"{self.order}I", length)[0], 12)

    def body(self, length: int, behind: int) -> bytes:
        """What is left of a block of that length, of which so many bytes were read, without the length at its end."""
        if not behind + 4 <= length <= PACKET_MOST or length % 4:
            raise NoCapture(f"this capture is damaged: a block of {length} bytes")
        return read(self.stream, length - behind)[:-4]

    def read_block(self, kind: int) -> Packet | None:
        """Reads a block. Answers its packet; None if it has none."""
        body = self.body(struct.unpack(f"{self.order}I", read(self.stream, 4))[0], 8)
        try:
            if kind == INTERFACE:
                self.interfaces.append(self.interface(body))
            elif kind == PACKET:
                number, high, low, length, _ = struct.unpack_from(f"{self.order}5I", body)
                return self.packet(number, self.interfaces[number].time_us(high, low), body[20:], length)
            elif kind == OLD_PACKET:
                number, _, high, low, length, _ = struct.unpack_from(f"{self.order}2H4I", body)
                return self.packet(number, self.interfaces[number].time_us(high, low), body[20:], length)
            elif kind == SIMPLE_PACKET:
                length, = struct.unpack_from(f"{self.order}I", body)
                return self.packet(0, self.latest_us, body[4:], min(length, len(body) - 4))
        except (struct.error, IndexError):
            raise NoCapture("this capture is damaged: a block is too short, or names no interface") from None
        return None

    def packet(self, number: int, time_us: int, data: bytes, length: int) -> Packet:
        """A packet of an interface, whose bytes are followed by some that fill its block."""
        if length > len(data):
            raise NoCapture(f"this capture is damaged: a packet of {length} bytes in a block that is shorter")
        return Packet(time_us, self.interfaces[number].link, data[:length])

    def interface(self, body: bytes) -> Interface:
        """The interface that a block says."""
        link, = struct.unpack_from(f"{self.order}H", body)
        found = Interface(link)
        start = 8
        while start + 4 <= len(body):
            code, length = struct.unpack_from(f"{self.order}2H", body, start)
            value = body[start + 4:start + 4 + length]
            if code == END_OF_OPTIONS:
                break
            if code == IF_TSRESOL and value:
                found.parts = (2 if value[0] & 0x80 else 10) ** (value[0] & 0x7F)
            elif code == IF_TSOFFSET and len(value) == 8:
                found.offset, = struct.unpack(f"{self.order}q", value)
            start += 4 + length + -length % 4
        return found
