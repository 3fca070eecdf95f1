"""What came in the last seconds: for the plots of a row, and for a file that Wireshark reads."""
from __future__ import annotations

from collections import deque
from collections.abc import Iterable
from typing import BinaryIO

from trdp_ports import Datagram
from trdp_telegram import PcapngFile

KEPT_MOST = 64 << 20
"""The most bytes of memory, about, that all kept datagrams take."""
EACH = 200
"""How many bytes of memory, about, a datagram takes beside its own."""
PLACES_MOST = 4096
"""Of how many places datagrams share one pair of address and port."""

Place = tuple[str, int]
Entry = tuple[int, Place, Place, bytes, int]
"""A datagram that came: when, its source, its destination, its bytes, and the number of its row, or 0. It is no class,
because only plain tuples cost the garbage collector nothing."""


class Kept:
    """The datagrams of the last seconds, the oldest first; fewer, if they take too much memory."""

    def __init__(self, seconds: float) -> None:
        self.time_us = round(seconds * 1_000_000)
        self.entries: deque[Entry] = deque()
        self._size = 0
        self._places: dict[Place, Place] = {}

    def add(self, came: Datagram, row: int) -> None:
        """Keeps a datagram, and drops what is too old."""
        if not self.time_us:
            return
        self.entries.append((came.time_us, self.shared(came.source), self.shared(came.dest), came.data, row))
        self._size += EACH + len(came.data)
        while self._size > KEPT_MOST or self.entries[0][0] < came.time_us - self.time_us:
            self._size -= EACH + len(self.entries.popleft()[3])

    def shared(self, place: Place) -> Place:
        """The pair of a place that its datagrams share."""
        if len(self._places) >= PLACES_MOST:
            self._places.clear()
        return self._places.setdefault(place, place)

    def of_row(self, row: int, after_us: int) -> list[Entry]:
        """What came for a row after that time."""
        found: list[Entry] = []
        for entry in reversed(self.entries):
            if entry[0] <= after_us:
                break
            if entry[4] == row:
                found.append(entry)
        return found[::-1]


def write_pcapng(file: BinaryIO, entries: Iterable[Entry]) -> None:
    """Writes datagrams into a file in pcapng."""
    out = PcapngFile(file)
    for time_us, source, dest, data, _ in entries:
        out.add(time_us, source, dest, data)
