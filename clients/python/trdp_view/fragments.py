"""IPv4 packets that were sent in fragments, put together again within bounded memory."""
from __future__ import annotations

import struct
from collections import OrderedDict
from dataclasses import dataclass, field

ASSEMBLIES_MOST = 64
"""How many packets are put together at once at most. Each takes at most 72 KiB."""
PATIENCE_US = 30_000_000
"""How long the fragments of a packet are waited for."""
UNIT = 8
"""Fragments begin at multiples of so many bytes."""
IP_MOST = 65535
MORE, OFFSET = 0x2000, 0x1FFF


def is_fragment(packet: bytes) -> bool:
    """Whether an IPv4 packet is a part of a longer one."""
    return bool(packet[6] & (MORE | OFFSET) >> 8 or packet[7])


@dataclass
class Assembly:
    """A packet of which fragments came. `is_there` has a byte for each unit."""

    begun_us: int
    header: bytes = b""
    length: int | None = None  # of all that is behind the header, once the last fragment came
    data: bytearray = field(default_factory=bytearray)
    is_there: bytearray = field(default_factory=bytearray)

    def add(self, offset: int, part: bytes, is_last: bool) -> None:
        """Puts a fragment into its place."""
        end = offset + len(part)
        units = -(-end // UNIT)
        self.data.extend(bytes(max(0, end - len(self.data))))
        self.is_there.extend(bytes(max(0, units - len(self.is_there))))
        self.data[offset:end] = part
        self.is_there[offset // UNIT:units] = b"\1" * (units - offset // UNIT)
        if is_last:
            self.length = end

    def whole(self) -> bytes | None:
        """The packet; None while a fragment is missing."""
        if self.length is None or not self.header or 0 in self.is_there[:-(-self.length // UNIT)]:
            return None
        return self.header + bytes(self.data[:self.length])


class Fragments:
    """The packets that are put together at the moment. Of too many the oldest is dropped, and so is one whose fragments
    don't come in time."""

    def __init__(self) -> None:
        self.assemblies: OrderedDict[bytes, Assembly] = OrderedDict()
        self.dropped = 0

    def add(self, time_us: int, packet: bytes) -> bytes | None:
        """Takes a fragment, an IPv4 packet with a whole header. Answers the packet if this was the last one of it."""
        start = (packet[0] & 15) * 4
        length, _, place = struct.unpack_from(">3H", packet, 2)
        offset = (place & OFFSET) * UNIT
        part = packet[start:length]
        is_last = not place & MORE
        if len(part) < length - start or not part or offset + len(part) > IP_MOST - start:
            return None
        if len(part) % UNIT and not is_last:
            return None
        # Of one packet are the fragments with the same addresses, protocol and identification.
        key = packet[12:20] + packet[9:10] + packet[4:6]
        assembly = self.assembly(key, time_us)
        if offset == 0:
            assembly.header = packet[:start]
        assembly.add(offset, part, is_last)
        whole = assembly.whole()
        if whole is not None:
            del self.assemblies[key]
        return whole

    def assembly(self, key: bytes, time_us: int) -> Assembly:
        """The packet that a fragment belongs to, which may begin with it."""
        found = self.assemblies.get(key)
        if found is not None and time_us - found.begun_us <= PATIENCE_US:
            return found
        if found is not None:
            del self.assemblies[key]
            self.dropped += 1
        if len(self.assemblies) >= ASSEMBLIES_MOST:
            self.assemblies.popitem(last=False)
            self.dropped += 1
        self.assemblies[key] = Assembly(time_us)
        return self.assemblies[key]
