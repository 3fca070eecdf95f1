"""The words of a line: what a call's arguments become, and what the words of an answer are."""
from __future__ import annotations

import ipaddress
import uuid
from typing import Any, TypeVar

from ._limits import U32_MOST
from ._shown import shown


def number_word(name: str, value: int, low: int = 0, high: int = U32_MOST) -> str:
    if not isinstance(value, int) or not low <= value <= high:
        raise ValueError(f"{name} is {shown(value)}, and no whole number of {low} to {high}")
    return str(int(value))


def whole(name: str, value: int, low: int, high: int = U32_MOST) -> int:
    return int(number_word(name, value, low, high))


def status_word(value: int) -> str:
    return number_word("status", value, -(1 << 31), (1 << 31) - 1)


def address_word(name: str, value: Any) -> str:
    try:
        if isinstance(value, (str, ipaddress.IPv4Address)):
            return str(ipaddress.IPv4Address(value))
    except ValueError:
        pass
    raise ValueError(f"{name} is {shown(value)}, and no address as 10.0.0.2")


def place_word(name: str, value: str) -> str:
    address, _, port = str(value).rpartition(":")
    try:
        return f"{ipaddress.IPv4Address(address)}:{number_word(name, int(port), 0, 0xFFFF)}"
    except ValueError:
        raise ValueError(f"{name} is {shown(value)}, and no place as 10.0.0.2:17224") from None


def session_word(value: uuid.UUID | str) -> str:
    try:
        return str(value if isinstance(value, uuid.UUID) else uuid.UUID(value))
    except (ValueError, TypeError, AttributeError):
        raise ValueError(f"session is {shown(value)}, and no UUID") from None


def hex_word(data: bytes) -> str:
    return data.hex() or "-"


def uri_word(name: str, value: str) -> str:
    data = typed(name, value, str, "text").encode("utf-8", "surrogateescape")
    if len(data) > 32 or 0 in data:
        raise ValueError(f"{name} is {shown(value)}, and no text of at most 32 bytes, none of them zero")
    return hex_word(data)


_Kind = TypeVar("_Kind")


def typed(name: str, value: Any, kind: type[_Kind], what: str) -> _Kind:
    """A value that is of that type. Raises TypeError."""
    if not isinstance(value, kind):
        raise TypeError(f"{name} is {shown(value)}, and no {what}")
    return value


def bytes_of(word: str) -> bytes:
    return b"" if word == "-" else bytes.fromhex(word)


def uri_of(word: str) -> str:
    return bytes_of(word).decode("utf-8", "surrogateescape")


def counts_words(etb: int, op_trn: int) -> tuple[str, str]:
    return number_word("etb", etb), number_word("op_trn", op_trn)
