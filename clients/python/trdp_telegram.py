"""Telegrams of the Train Real-time Data Protocol, and files of them for Wireshark.

Used by trdp_dump.py, trdp_send.py and trdp_view. docs/SCRIPT.md has the headers, byte by byte.
"""
from __future__ import annotations

import ipaddress
import struct
import uuid
import zlib
from dataclasses import dataclass, field
from typing import BinaryIO

from trdp_slot import MD_MOST, PD_MOST

PD_PORT = 17224
MD_PORT = 17225
PD_KINDS = ("Pd", "Pp", "Pr")
"""The types of process data: data, pull reply, pull request."""
MD_KINDS = ("Mn", "Mr", "Mp", "Mq", "Mc", "Me")
"""The types of message data: notification, request, reply, query, confirmation, error."""
VERSION = 0x0100

_PD_HEAD = struct.Struct(">IH2s7I")
_MD_HEAD = struct.Struct(">IH2s4Ii16sI32s32s")
_CHECK = struct.Struct("<I")
PD_HEADER, MD_HEADER = _PD_HEAD.size + _CHECK.size, _MD_HEAD.size + _CHECK.size
"""The bytes of a header of process data, and of message data."""
# The fields of both headers; headerFcs is behind them.
_START_NAMES = ("sequenceCounter", "protocolVersion", "msgType", "comId", "etbTopoCnt", "opTrnTopoCnt", "datasetLength")
_PD_NAMES = (*_START_NAMES, "reserved", "replyComId", "replyIpAddress")
_MD_NAMES = (*_START_NAMES, "replyStatus", "sessionId", "replyTimeout", "sourceURI", "destinationURI")


class NoTelegram(ValueError):
    """Bytes are no telegram. `name` says why: Short, TooLong, Fcs, Version, Kind or Length, of which the first that
    applies is named."""

    def __init__(self, name: str) -> None:
        super().__init__(name)
        self.name = name


@dataclass
class Telegram:
    """A telegram. The fields below `payload` are those of message data alone, but for the reply fields, which a
    pull request has."""

    kind: str
    com_id: int
    counter: int = 0
    etb: int = 0
    op_trn: int = 0
    payload: bytes = b""
    reply_com_id: int = 0
    reply_address: str = "0.0.0.0"
    status: int = 0
    session: uuid.UUID = field(default_factory=lambda: uuid.UUID(int=0))
    time_us: int = 0
    source_uri: bytes = b""
    dest_uri: bytes = b""

    @property
    def is_message(self) -> bool:
        """Whether it is message data."""
        return self.kind in MD_KINDS

    def write(self) -> bytes:
        """Its bytes. Raises ValueError where a value can't be in its field of a header, or the payload is longer than
        one may be."""
        if self.kind not in PD_KINDS + MD_KINDS:
            raise ValueError(f"there is no type {self.kind}")
        most = MD_MOST if self.is_message else PD_MOST
        if len(self.payload) > most:
            raise ValueError(f"the payload has {len(self.payload)} bytes, and at most {most} are carried")
        if max(len(self.source_uri), len(self.dest_uri)) > 32:
            raise ValueError("a URI has at most 32 bytes")
        try:
            head = self._md_head() if self.is_message else self._pd_head()
        except struct.error as fault:
            raise ValueError(f"a field is out of its range: {fault}") from None
        return head + _CHECK.pack(zlib.crc32(head)) + self.payload + bytes(-len(self.payload) % 4)

    def _pd_head(self) -> bytes:
        return _PD_HEAD.pack(self.counter, VERSION, self.kind.encode(), self.com_id, self.etb, self.op_trn,
                             len(self.payload), 0, self.reply_com_id, int(ipaddress.IPv4Address(self.reply_address)))

    def _md_head(self) -> bytes:
        return _MD_HEAD.pack(self.counter, VERSION, self.kind.encode(), self.com_id, self.etb, self.op_trn,
                             len(self.payload), self.status, self.session.bytes, self.time_us, self.source_uri,
                             self.dest_uri)


def read_telegram(data: bytes, is_message: bool, is_checked: bool = True) -> Telegram:
    """The telegram of process data, or of message data, that these bytes are; one with a wrong headerFcs only if it
    isn't checked. Raises NoTelegram."""
    head = _MD_HEAD if is_message else _PD_HEAD
    start = MD_HEADER if is_message else PD_HEADER
    if len(data) < start:
        raise NoTelegram("Short")
    most = MD_MOST if is_message else PD_MOST
    if len(data) > start + most:
        raise NoTelegram("TooLong")
    if is_checked and _CHECK.unpack_from(data, head.size)[0] != zlib.crc32(data[:head.size]):
        raise NoTelegram("Fcs")
    counter, version, kind, com_id, etb, op_trn, length, *rest = head.unpack_from(data)
    if version >> 8 != VERSION >> 8:
        raise NoTelegram("Version")
    # An error telegram of process data, which this node takes no notice of, is one as well.
    name = kind.decode("ascii", "replace")
    if name not in (MD_KINDS if is_message else PD_KINDS + ("Pe",)):
        raise NoTelegram("Kind")
    if length > len(data) - start:
        raise NoTelegram("Length")
    telegram = Telegram(name, com_id, counter, etb, op_trn, data[start:start + length])
    if is_message:
        telegram.status, session, telegram.time_us, source_uri, dest_uri = rest
        telegram.session = uuid.UUID(bytes=session)
        # A URI ends at its first zero byte.
        telegram.source_uri, telegram.dest_uri = source_uri.split(b"\0")[0], dest_uri.split(b"\0")[0]
    else:
        _, telegram.reply_com_id, address = rest
        telegram.reply_address = str(ipaddress.IPv4Address(address))
    return telegram


def header_fields(data: bytes, is_message: bool) -> list[tuple[str, str]]:
    """The fields of a telegram's header in their order, by the standard's names, each with its text."""
    head, names = (_MD_HEAD, _MD_NAMES) if is_message else (_PD_HEAD, _PD_NAMES)
    fields = [(name, _field_text(name, value)) for name, value in zip(names, head.unpack_from(data), strict=True)]
    check, right = _CHECK.unpack_from(data, head.size)[0], zlib.crc32(data[:head.size])
    is_right = "right" if check == right else f"wrong, 0x{right:08x} is right"
    return [*fields, ("headerFcs", f"0x{check:08x} ({is_right})")]


def _field_text(name: str, value: int | bytes) -> str:
    """The text of a header's field."""
    if isinstance(value, int):
        if name == "replyIpAddress":
            return str(ipaddress.IPv4Address(value))
        return f"0x{value:04x}" if name == "protocolVersion" else str(value)
    if name == "sessionId":
        return str(uuid.UUID(bytes=value))
    return value.split(b"\0")[0].decode("utf-8", "backslashreplace")


class PcapngFile:
    """A file in pcapng, which Wireshark and tshark read. What a datagram had on the wire below UDP isn't known
    here, so each gets IPv4 and UDP headers with its addresses and ports, and without a UDP check sum."""

    _RAW_IP = 101  # the link type of packets that begin with an IP header

    def __init__(self, file: BinaryIO) -> None:
        """Writes the beginning of such a file."""
        self._file = file
        self._block(0x0A0D0D0A, struct.pack("<IHHq", 0x1A2B3C4D, 1, 0, -1))
        self._block(1, struct.pack("<HHI", self._RAW_IP, 0, 0))

    def add(self, time_us: int, source: tuple[str, int], dest: tuple[str, int], data: bytes) -> None:
        """Writes a datagram that came at that time, in microseconds since 1970, and has the file system have it."""
        length = 8 + len(data)
        packet = _ip_header(source[0], dest[0], length) + struct.pack(">4H", source[1], dest[1], length, 0) + data
        head = struct.pack("<5I", 0, time_us >> 32, time_us & 0xFFFFFFFF, len(packet), len(packet))
        self._block(6, head + packet)
        self._file.flush()

    def _block(self, kind: int, body: bytes) -> None:
        body += bytes(-len(body) % 4)
        length = struct.pack("<I", 12 + len(body))
        self._file.write(struct.pack("<I", kind) + length + body + length)


def _ip_header(source: str, dest: str, length: int) -> bytes:
    """An IPv4 header before that many bytes of UDP."""
    addresses = ipaddress.IPv4Address(source).packed + ipaddress.IPv4Address(dest).packed
    head = struct.pack(">BBHHHBBH", 0x45, 0, 20 + length, 0, 0x4000, 64, 17, 0) + addresses
    total = sum(struct.unpack(">10H", head))
    while total > 0xFFFF:
        total = (total & 0xFFFF) + (total >> 16)
    return head[:10] + struct.pack(">H", 0xFFFF - total) + head[12:]
