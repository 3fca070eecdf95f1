"""Lines of a script: the event of each, or its fault."""
from __future__ import annotations

from collections.abc import Callable
from functools import partial
from typing import Any, NamedTuple

from .texts import BadWord, read_hex, read_ip, read_number, read_place, read_session, read_status, read_uri

LINE_MAX = 140_000
# What reads a word.
Reader = Callable[[str], Any]

U8, U16, U32, U64 = (partial(read_number, most=2**bits - 1) for bits in (8, 16, 32, 64))
QUOTA = partial(read_number, most=256)


def one_of(**words: bool) -> Callable[[str], bool]:
    """The reader of a word that is one of these."""

    def reader(word: str) -> bool:
        if word not in words:
            raise BadWord(word)
        return words[word]

    return reader


def com_or_any(word: str) -> int | None:
    """A comId, or None for every one."""
    return None if word == "any" else U32(word)


EVENTS: dict[str, tuple[Reader, ...]] = {
    "moment": (U64,),
    "topology": (U32, U32),
    "role": (U8, one_of(leader=True, follower=False)),
    "addslot": (QUOTA,) * 6,
    "pd": (read_place, read_place, read_hex),
    "md": (read_place, read_place, read_hex),
}
CALLS: dict[str, tuple[Reader, ...]] = {
    "publish": (U32, U32, U32, U8, U32, U32, read_place),
    "put": (U32, read_hex),
    "unpublish": (U32,),
    "subscribe": (U32, U32, read_ip, read_ip, read_ip, U32, U32, U32, one_of(zero=True, keep=False)),
    "get": (U32,),
    "unsubscribe": (U32,),
    "openpull": (U32, U32, read_ip, U32, U32, read_place),
    "pull": (U32,),
    "closepull": (U32,),
    "listen": (com_or_any, read_ip, read_ip, read_ip, read_uri, U32, U32),
    "unlisten": (U32,),
    "notify": (U32, read_uri, read_uri, U32, U32, read_place, read_hex),
    "request": (U32, read_session, U8, U32, read_uri, read_uri, U32, U32, read_place, read_hex, U8),
    "reply": (U32, U32, read_status, read_hex),
    "query": (U32, U32, read_status, U32, read_hex),
    "replyerror": (U32, U32, read_status),
    "confirm": (U32, read_place, read_status),
    "abort": (U32,),
    "reset": (),
}


class LineFault(Exception):
    """A line that can't be read; its text is the fault's name."""


class Event(NamedTuple):
    """What a line says: its first word, or that of a call, what follows it, and the call's slot."""

    word: str
    values: tuple[Any, ...]
    slot: int | None = None


def read_line(line: str) -> Event | None:
    """The event of a line without its end; None of one that is skipped. Raises LineFault."""
    if len(line) > LINE_MAX:
        raise LineFault("TooLong")
    if not line or line.startswith("#"):
        return None
    readers: tuple[Reader, ...] | None
    first, *words = line.split(" ")
    if first == "call":
        name, words = (words[1] if len(words) > 1 else ""), words[:1] + words[2:]
        readers = (U16, *CALLS[name]) if name in CALLS else None
    else:
        name, readers = first, EVENTS.get(first)
    if readers is None:
        raise LineFault("Unknown")
    # A request's retries may be left out.
    if name == "request" and len(words) == len(readers) - 1:
        words = words + ["0"]
    if len(words) != len(readers):
        raise LineFault("Count")
    try:
        values = tuple(reader(word) for reader, word in zip(readers, words))
    except BadWord:
        raise LineFault("BadWord") from None
    return Event(name, values[1:], values[0]) if first == "call" else Event(name, values)
