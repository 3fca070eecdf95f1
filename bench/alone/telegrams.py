"""Telegrams, read and written."""
from __future__ import annotations

import struct
import zlib
from typing import NamedTuple

from .texts import Pair

PD_PAYLOAD_MAX = 1432
MD_PAYLOAD_MAX = 65388


class Layout(NamedTuple):
    """What the two protocols have of their own: the length of a header, the longest telegram, the types."""

    head: int
    most: int
    kinds: tuple[str, ...]


LAYOUTS = {
    "pd": Layout(40, 1472, ("Pd", "Pp", "Pr", "Pe")),
    "md": Layout(116, 65504, ("Mn", "Mr", "Mp", "Mq", "Mc", "Me")),
}


class Data(NamedTuple):
    """A telegram of process data."""

    kind: str
    com_id: int
    payload: bytes = b""
    counter: int = 0
    topo: Pair = (0, 0)
    reply_com_id: int = 0
    reply_ip: int = 0


class Message(NamedTuple):
    """A telegram of message data."""

    kind: str
    com_id: int
    payload: bytes = b""
    counter: int = 0
    topo: Pair = (0, 0)
    status: int = 0
    session: int = 0
    time: int = 0
    source_uri: bytes = b""
    dest_uri: bytes = b""


def checked(head: bytes) -> bytes:
    """A header without its frame check, and the check after it."""
    return head + struct.pack("<I", zlib.crc32(head))


def front(telegram: Data | Message, length: int, version: int = 0x0100) -> bytes:
    """The 24 bytes that both headers begin with."""
    kind = telegram.kind.encode()
    return struct.pack(">IH2s4I", telegram.counter, version, kind, telegram.com_id, *telegram.topo, length)


def write_pd(data: Data) -> bytes:
    head = front(data, len(data.payload)) + struct.pack(">3I", 0, data.reply_com_id, data.reply_ip)
    return checked(head) + data.payload + bytes(-len(data.payload) % 4)


def write_md(message: Message) -> bytes:
    head = front(message, len(message.payload)) + struct.pack(">i", message.status)
    head += message.session.to_bytes(16, "big") + struct.pack(">I", message.time)
    head += message.source_uri.ljust(32, b"\0") + message.dest_uri.ljust(32, b"\0")
    return checked(head) + message.payload + bytes(-len(message.payload) % 4)


def fault_of(protocol: str, datagram: bytes) -> str | None:
    """The first fault of a datagram; None where it is a telegram."""
    layout = LAYOUTS[protocol]
    if len(datagram) < layout.head:
        return "Short"
    if len(datagram) > layout.most:
        return "TooLong"
    if zlib.crc32(datagram[:layout.head - 4]) != int.from_bytes(datagram[layout.head - 4:layout.head], "little"):
        return "Fcs"
    if datagram[4] != 1:
        return "Version"
    if datagram[6:8].decode("latin-1") not in layout.kinds:
        return "Kind"
    if int.from_bytes(datagram[20:24], "big") > len(datagram) - layout.head:
        return "Length"
    return None


def read(protocol: str, datagram: bytes) -> Data | Message:
    """The telegram of bytes that are one."""
    counter, _, kind, com_id, etb, op_trn, length = struct.unpack_from(">IH2s4I", datagram)
    head = LAYOUTS[protocol].head
    common = (kind.decode(), com_id, datagram[head:head + length], counter, (etb, op_trn))
    if protocol == "pd":
        return Data(*common, *struct.unpack_from(">2I", datagram, 28))
    status, = struct.unpack_from(">i", datagram, 24)
    time, = struct.unpack_from(">I", datagram, 44)
    uris = (datagram[at:at + 32].split(b"\0")[0] for at in (48, 80))
    return Message(*common, status, int.from_bytes(datagram[28:44], "big"), time, *uris)
