"""Ports at which telegrams come: those of an address and of groups, bound, or beside the program that has them.

Used by trdp_dump.py and trdp_view.
"""
from __future__ import annotations

import argparse
import contextlib
import errno
import selectors
import socket
import struct
import time
from collections.abc import Iterator
from typing import Any, NamedTuple

import trdp_words
from trdp_telegram import MD_PORT, PD_PORT

IP_HEADER = 20
UDP_HEADER = 8
# Options of the system that Python has no names for: whether a socket takes what comes to groups that others joined,
# that each datagram has the time when it came, that it has how many before it were dropped at this socket, and that
# more bytes may wait there than others may have, which takes root.
IP_MULTICAST_ALL = 49
SO_TIMESTAMPNS = 35
SO_RXQ_OVFL = 40
SO_RCVBUFFORCE = 33
# How many bytes may wait at a socket, if the system allows so many: a reader in Python pauses now and then.
ROOM = 4 << 20
# How many bytes the two notes of a datagram take: when it came, and what was dropped.
NOTES = 128
# How many seconds one wait takes at most: the system takes none of many days.
WAIT_MOST = 3600.0


class Datagram(NamedTuple):
    """A datagram that came to one of the ports, and when it came, in microseconds since 1970."""

    source: tuple[str, int]
    dest: tuple[str, int]
    data: bytes
    time_us: int = 0


def datagram_of(packet: bytes, time_us: int = 0) -> Datagram | None:
    """The datagram in an IP packet; None where it holds no whole one."""
    start = (packet[0] & 15) * 4 if packet and packet[0] >> 4 == 4 else 0
    if start < IP_HEADER or len(packet) < start + UDP_HEADER:
        return None
    source, dest, length = struct.unpack_from(">3H", packet, start)
    if not UDP_HEADER <= length <= len(packet) - start:
        return None
    addresses = socket.inet_ntoa(packet[12:16]), socket.inet_ntoa(packet[16:20])
    data = packet[start + UDP_HEADER:start + length]
    return Datagram((addresses[0], source), (addresses[1], dest), data, time_us)


class Where(NamedTuple):
    """Where telegrams come: to two ports of an address, and of groups that are joined at an interface."""

    address: str
    groups: tuple[str, ...]
    interface: trdp_words.Interface
    ports: tuple[int, int]

    @property
    def homes(self) -> list[str]:
        """The address and the groups, each once."""
        return list(dict.fromkeys([self.address, *self.groups]))

    def open(self, kind: socket.SocketKind, protocol: int, stack: contextlib.ExitStack) -> socket.socket:
        """A socket, which the stack closes, and which takes nothing of a group before it has joined it."""
        port = stack.enter_context(socket.socket(socket.AF_INET, kind, protocol))
        port.setblocking(False)
        port.setsockopt(socket.SOL_SOCKET, socket.SO_RCVBUF, ROOM)
        with contextlib.suppress(PermissionError):
            port.setsockopt(socket.SOL_SOCKET, SO_RCVBUFFORCE, ROOM)
        for option in (SO_TIMESTAMPNS, SO_RXQ_OVFL):
            port.setsockopt(socket.SOL_SOCKET, option, 1)
        if self.groups:
            port.setsockopt(socket.IPPROTO_IP, IP_MULTICAST_ALL, 0)
        return port

    def join(self, port: socket.socket, home: str) -> None:
        """Joins that home until the socket is closed, where it is one of the groups. Raises OSError with the group."""
        if home not in self.groups:
            return
        address, number = self.interface
        asked = struct.pack("=4s4si", socket.inet_aton(home), socket.inet_aton(address), number)
        try:
            port.setsockopt(socket.IPPROTO_IP, socket.IP_ADD_MEMBERSHIP, asked)
        except OSError as fault:
            raise OSError(fault.errno, f"{fault.strerror}: --interface says where it is joined", home) from None


def seconds_left(end: float | None) -> float:
    """How long to wait at once for what comes before that moment."""
    return WAIT_MOST if end is None else min(WAIT_MOST, max(0.0, end - time.monotonic()))


def bind(port: socket.socket, place: tuple[str, int]) -> None:
    """Binds a socket. Raises OSError with the place, and with a way out where another program has it."""
    try:
        port.bind(place)
    except OSError as fault:
        why = fault.strerror
        if fault.errno == errno.EADDRINUSE:
            why = f"{why}: a program has this port; --beside copies what comes to it, as root"
        raise OSError(fault.errno, why, f"{place[0]}:{place[1]}") from None


def share(port: socket.socket, is_shared: bool) -> None:
    """Says whether others may have the same port, where they say so, too."""
    port.setsockopt(socket.SOL_SOCKET, socket.SO_REUSEADDR, is_shared)


class Taker:
    """Takes what comes to the ports, and counts what the system tells of and can't be read."""

    unread = 0

    def __init__(self, where: Where, stack: contextlib.ExitStack) -> None:
        """The sockets are closed with the stack."""
        self.where = where
        self.selector = stack.enter_context(selectors.DefaultSelector())
        self._drops: dict[int, int] = {}  # of each socket, as the system counts them

    @property
    def dropped(self) -> int:
        """How many datagrams the system dropped, since no room was left for them. It says so with a later one."""
        return sum(self._drops.values())

    def datagrams(self, end: float | None) -> Iterator[Datagram]:
        """What comes before the moment `end` of `time.monotonic`."""
        while end is None or time.monotonic() < end:
            yield from self.take(seconds_left(end))

    def take(self, seconds: float) -> Iterator[Datagram]:
        """What there is, where something comes within that many seconds."""
        raise NotImplementedError

    def receive(self, port: socket.socket) -> tuple[bytes, Any, int]:
        """The next datagram or packet at a socket, where it comes from, and when it came. Raises OSError."""
        data, notes, _, source = port.recvmsg(65536, NOTES)
        time_us = 0
        for _, kind, note in notes:
            if kind == SO_TIMESTAMPNS:
                seconds, nanoseconds = struct.unpack("=qq", note)
                time_us = seconds * 1_000_000 + nanoseconds // 1000
            elif kind == SO_RXQ_OVFL:
                self._drops[port.fileno()] = struct.unpack("=I", note)[0]
        return data, source, time_us or time.time_ns() // 1000


class Ports(Taker):
    """Ports of an address and of groups, bound: each socket takes what is sent to its home alone."""

    def __init__(self, where: Where, stack: contextlib.ExitStack) -> None:
        super().__init__(where, stack)
        home, *groups = where.homes
        for port in where.ports:
            own = self.bound((home, port), False, stack)
            # The system takes 0.0.0.0 and a group for one place, unless both sockets share their port. Nobody else
            # shall share that of the address.
            share(own, True)
            for group in groups:
                self.bound((group, port), True, stack)
            share(own, False)

    def bound(self, place: tuple[str, int], is_shared: bool, stack: contextlib.ExitStack) -> socket.socket:
        """A socket that is bound there, and read."""
        port = self.where.open(socket.SOCK_DGRAM, 0, stack)
        share(port, is_shared)
        bind(port, place)
        self.where.join(port, place[0])
        self.selector.register(port, selectors.EVENT_READ, (port, place))
        return port

    def take(self, seconds: float) -> Iterator[Datagram]:
        for key, _ in self.selector.select(seconds):
            bound, place = key.data
            try:
                data, source, time_us = self.receive(bound)
            except OSError:
                # As where the system finds a check sum wrong only when it hands the datagram over.
                self.unread += 1
                continue
            yield Datagram(source, place, data, time_us)


class Beside(Taker):
    """The same of ports that another program may have: the system gives a copy of each packet, with its headers."""

    def __init__(self, where: Where, stack: contextlib.ExitStack) -> None:
        super().__init__(where, stack)
        for home in where.homes:
            try:
                raw = where.open(socket.SOCK_RAW, socket.IPPROTO_UDP, stack)
            except PermissionError as fault:
                raise OSError(fault.errno, f"{fault.strerror}: it takes root", "--beside") from None
            try:
                raw.bind((home, 0))
            except OSError as fault:
                raise OSError(fault.errno, fault.strerror, home) from None
            where.join(raw, home)
            self.selector.register(raw, selectors.EVENT_READ, (raw, home))

    def take(self, seconds: float) -> Iterator[Datagram]:
        for key, _ in self.selector.select(seconds):
            raw, home = key.data
            try:
                packet, _, time_us = self.receive(raw)
                datagram = datagram_of(packet, time_us)
            except OSError:
                datagram = None
            if datagram is None:
                self.unread += 1
            # Until it was bound it had what came to all addresses.
            elif datagram.dest[1] in self.where.ports and home in (datagram.dest[0], trdp_words.ANY_ADDRESS):
                yield datagram


def add_words(words: trdp_words.Words, does: str) -> None:
    """Adds the words of a command line that say at which ports telegrams come. `does` is what becomes of them."""
    port = trdp_words.number(1, trdp_words.PORT_MOST)
    words.add_argument("--group", type=trdp_words.group, action="append", default=[],
                       help=f"join this group, as 239.192.0.1, and {does} what comes to it, too; may be repeated")
    words.add_argument("--interface", type=trdp_words.interface, metavar="NAME-OR-ADDRESS",
                       help="where the groups are joined, as eth0 or 10.0.0.2 (the interface of the address)")
    words.add_argument("--pd-port", type=port, default=PD_PORT, help="port of process data (17224)")
    words.add_argument("--md-port", type=port, default=MD_PORT, help="port of message data (17225)")
    words.add_argument("--beside", action="store_true", help="beside the program that has the ports, as root")


def check_words(words: trdp_words.Words, asked: argparse.Namespace) -> None:
    """Ends the program by a sentence where these words can't be meant together."""
    if asked.pd_port == asked.md_port:
        words.error(f"--pd-port and --md-port are both {asked.pd_port}")
    if asked.interface and not asked.group:
        words.error("--interface wants --group")


def taker_of(address: str, asked: argparse.Namespace, stack: contextlib.ExitStack) -> Taker:
    """What takes what comes to an address, by these words. Raises OSError."""
    own = trdp_words.Interface() if trdp_words.is_group(address) else trdp_words.Interface(address)
    where = Where(address, tuple(asked.group), asked.interface or own, (asked.pd_port, asked.md_port))
    return Beside(where, stack) if asked.beside else Ports(where, stack)
