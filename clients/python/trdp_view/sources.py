"""Where telegrams come from: a capture, or the ports of an address and groups."""
from __future__ import annotations

import time
from collections.abc import Iterator
from typing import BinaryIO

from trdp_ports import IP_HEADER, Datagram, Taker, datagram_of, seconds_left

from .captures import NoCapture, packets
from .fragments import Fragments, is_fragment
from .links import LINKS, ip_packet

UDP = 17
LAG_US = 1_000_000
"""By how much a capture that grows may be behind: who writes it does so in bursts."""
BACK_US = 10_000_000
"""By how much a packet of a capture may be before an earlier one: if it is more, the clock was set."""


class Source:
    """Where telegrams come from."""

    is_over = False
    """Whether nothing comes any more."""

    def datagrams(self) -> Iterator[Datagram]:
        """What comes, until the end. Raises OSError, and ValueError."""
        raise NotImplementedError

    def now_us(self) -> int:
        """The time of what it shows, in microseconds since 1970."""
        raise NotImplementedError

    def unread(self) -> int:
        """How many datagrams were lost before they could be read, as far as that is known."""
        raise NotImplementedError


class Live(Source):
    """The ports of an address and of groups. Its time goes on evenly from when it began, also if the clock is set."""

    def __init__(self, taker: Taker) -> None:
        self.taker = taker
        self._ahead_us = clock_us() - time.monotonic_ns() // 1000
        self._begun_us = self.now_us()

    def datagrams(self) -> Iterator[Datagram]:
        while True:
            yield from self.take(None)

    def take(self, end: float | None) -> Iterator[Datagram]:
        """What there is, if something comes before that moment of `time.monotonic`."""
        for came in self.taker.take(seconds_left(end)):
            now_us, age_us = self.now_us(), clock_us() - came.time_us
            # If the clock was set after it came, nothing says how old it is.
            yield came._replace(time_us=now_us - (age_us if 0 <= age_us <= now_us - self._begun_us else 0))

    def now_us(self) -> int:
        return time.monotonic_ns() // 1000 + self._ahead_us

    def unread(self) -> int:
        # The system counts one whose check sum is wrong as dropped, too.
        return max(self.taker.unread, self.taker.dropped)


def clock_us() -> int:
    """What the clock of this machine shows, in microseconds since 1970."""
    return time.time_ns() // 1000


class Capture(Source):
    """A capture, which may grow while it is read. Its time is that of its latest packet, and goes on while it grows. If
    the clock was set back meanwhile, what comes after it is later by as much."""

    def __init__(self, stream: BinaryIO, ports: tuple[int, int], grows: bool) -> None:
        self.stream = stream
        self.ports = {it.to_bytes(2, "big") for it in ports}
        self.grows = grows
        self.fragments = Fragments()
        self.cut = 0  # how many datagrams weren't captured whole
        self.latest_us = 0
        self._read_at = 0.0
        self._set_back_us = 0

    def datagrams(self) -> Iterator[Datagram]:
        for packet in packets(self.stream):
            if packet.link not in LINKS:
                raise NoCapture(f"a packet of link type {packet.link}, and known are {', '.join(map(str, LINKS))}")
            time_us = packet.time_us + self._set_back_us
            if time_us < self.latest_us - BACK_US:
                self._set_back_us += self.latest_us - time_us
                time_us = self.latest_us
            self.latest_us = max(self.latest_us, time_us)
            self._read_at = time.monotonic()
            data = ip_packet(packet.link, packet.data)
            found = None if data is None else self.datagram(data, time_us)
            if found is not None:
                yield found
        self.is_over = True

    def datagram(self, packet: bytes, time_us: int) -> Datagram | None:
        """The datagram in an IPv4 packet, or in several that are its fragments; None if it isn't for the ports."""
        if len(packet) < IP_HEADER or packet[0] >> 4 != 4 or packet[9] != UDP:
            return None
        if is_fragment(packet):
            whole = self.fragments.add(time_us, packet)
            if whole is None:
                return None
            packet = whole
        start = (packet[0] & 15) * 4
        if packet[start + 2:start + 4] not in self.ports:
            return None
        found = datagram_of(packet, time_us)
        self.cut += found is None
        return found

    def now_us(self) -> int:
        if self.is_over or not self.grows:
            return self.latest_us
        waited = round((time.monotonic() - self._read_at) * 1_000_000)
        return self.latest_us + max(0, waited - LAG_US)

    def unread(self) -> int:
        return self.cut + self.fragments.dropped
