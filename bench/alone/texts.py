"""Words of lines: numbers, addresses, places, bytes and sessions, read and written."""
from __future__ import annotations

import re
import uuid

# An address and a port, two bounds, or two topology counters.
Pair = tuple[int, int]

NUMBER = re.compile(r"0|[1-9][0-9]*")
STATUS = re.compile(r"0|-?[1-9][0-9]*")
HEX = re.compile(r"(?:[0-9a-f]{2})+")
HYPHENATED = "[0-9a-fA-F]{8}(?:-[0-9a-fA-F]{4}){3}-[0-9a-fA-F]{12}"
SESSION = re.compile(rf"[0-9a-fA-F]{{32}}|(?:urn:uuid:)?{HYPHENATED}|\{{{HYPHENATED}\}}")


class BadWord(Exception):
    """A word that doesn't read, or is out of its range."""


def read_number(word: str, most: int) -> int:
    if not NUMBER.fullmatch(word) or len(word) > 20 or int(word) > most:
        raise BadWord(word)
    return int(word)


def read_status(word: str) -> int:
    if not STATUS.fullmatch(word) or len(word) > 11 or not -(2**31) <= int(word) < 2**31:
        raise BadWord(word)
    return int(word)


def read_ip(word: str) -> int:
    parts = word.split(".")
    if len(parts) != 4:
        raise BadWord(word)
    return int.from_bytes(bytes(read_number(part, 255) for part in parts), "big")


def read_place(word: str) -> Pair:
    """An address and a port."""
    parts = word.split(":")
    if len(parts) != 2:
        raise BadWord(word)
    return read_ip(parts[0]), read_number(parts[1], 65535)


def read_hex(word: str) -> bytes:
    if word == "-":
        return b""
    if not HEX.fullmatch(word):
        raise BadWord(word)
    return bytes.fromhex(word)


def read_uri(word: str) -> bytes:
    uri = read_hex(word)
    if len(uri) > 32 or 0 in uri:
        raise BadWord(word)
    return uri


def read_session(word: str) -> int:
    if not SESSION.fullmatch(word):
        raise BadWord(word)
    return uuid.UUID(word).int


def ip_text(ip: int) -> str:
    return ".".join(str(part) for part in ip.to_bytes(4, "big"))


def place_text(place: Pair) -> str:
    return f"{ip_text(place[0])}:{place[1]}"


def hex_text(data: bytes) -> str:
    return data.hex() or "-"


def session_text(session: int) -> str:
    return str(uuid.UUID(int=session))
