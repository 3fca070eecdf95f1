"""The network in JSON: what `--print` writes, and what the page is told."""
from __future__ import annotations

import ipaddress
from typing import Any

from trdp_slot import PD_MOST
from trdp_telegram import PD_KINDS

from .known import WITHOUT_VALUE
from .network import Network
from .rows import Row
from .sessions import Message, Session
from .values import reading, value_of

TEXT_MOST = 500
"""The most letters of a value that the page is told with each change of a row."""


def payload_of(row: Row) -> bytes | None:
    """The latest payload of a row; None if it is no value of its dataset, or was never there."""
    if row.telegram is None or row.is_fault or row.key.kind in WITHOUT_VALUE and not row.telegram.payload:
        return None
    return row.telegram.payload


def row_value(network: Network, row: Row) -> Any:
    """The value of a row's latest telegram; None if it has none. It is unpacked only if it has changed."""
    payload = payload_of(row)
    if payload is None:
        return None
    if row.value is None or row.value[0] != payload:
        row.value = payload, value_of(network.file, row.key.com_id, payload)
    return row.value[1]


def row_text(network: Network, row: Row) -> str | None:
    """The same as people read it, and not all of it if it is long."""
    payload = payload_of(row)
    if payload is None:
        return None
    if row.text is None or row.text[0] != payload:
        text = reading(network.file, row.key.com_id, payload)
        row.text = payload, text if len(text) <= TEXT_MOST else f"{text[:TEXT_MOST]} .."
    return row.text[1]


def printed_row(network: Network, row: Row) -> dict[str, Any]:
    """A row as `--print` writes it."""
    return row_with(network, row, row_value(network, row))


def row_with(network: Network, row: Row, value: Any) -> dict[str, Any]:
    """The same with this value."""
    known = row.known
    return {
        "source": row.key.source, "dest": row.key.dest, "com_id": row.key.com_id, "type": row.key.kind,
        "name": known.name if known is not None else None,
        "count": row.count, "gaps": row.counting.gaps,
        "cycle_us": known.cycle_us if known is not None else None,
        "median_us": row.cycles.median_us(), "worst_us": row.cycles.worst_us,
        "silent": row.is_silent, "value": value,
        "marks": row.marks(network.file.is_there),
    }


def page_row(network: Network, row: Row) -> dict[str, Any]:
    """A row as the page has it. All browsers are told the same one, until it changes."""
    if row.told is None or row.told[0] != row.version:
        row.told = row.version, made_row(network, row)
    return row.told[1]


def made_row(network: Network, row: Row) -> dict[str, Any]:
    """The same, made anew. The value of a long message is only told when it is asked for."""
    telegram = row.telegram
    is_long = telegram is not None and len(telegram.payload) > PD_MOST
    text = f"{len(telegram.payload)} bytes" if telegram is not None and is_long else row_text(network, row)
    return row_with(network, row, None if is_long else row_value(network, row)) | {
        "text": text,
        "number": row.number, "wrong": row.wrong, "lost": row.counting.missing, "repeats": row.counting.repeats,
        "restarts": row.counting.restarts, "jitter_us": row.cycles.jitter_us(), "latest_us": row.heard_us,
        "bytes_per_second": 0 if row.is_silent else row.cycles.bytes_per_second(),
        "counter": telegram.counter if telegram is not None else None,
        "etb": telegram.etb if telegram is not None else None,
        "op_trn": telegram.op_trn if telegram is not None else None,
        "marked": {str(mark): moment for mark, moment in row.marked.items()},
    }


def printed_message(message: Message) -> dict[str, Any]:
    """A telegram of a session."""
    return {
        "at_us": message.time_us, "type": message.kind, "com_id": message.com_id, "source": message.source[0],
        "dest": message.dest[0], "counter": message.counter, "status": message.status,
    }


def printed_session(session: Session) -> dict[str, Any]:
    """A session as `--print` writes it."""
    return {
        "session": str(session.session), "com_id": session.com_id,
        "telegrams": [printed_message(it) for it in session.messages], "ended": session.is_ended,
    }


def page_session(network: Network, session: Session) -> dict[str, Any]:
    """A session as the page has it."""
    known = network.file.known.get(session.com_id)
    return printed_session(session) | {
        "name": known.name if known is not None else None, "never": session.never, "left_out": session.left_out,
    }


def place_of(row: Row) -> tuple[Any, ...]:
    """Where a row stands in what is printed."""
    key = row.key
    is_message = key.kind not in (*PD_KINDS, "Pe")
    return (is_message, key.com_id, key.kind, ipaddress.IPv4Address(key.source), ipaddress.IPv4Address(key.dest))


def printed(network: Network, now_us: int) -> dict[str, Any]:
    """All that `--print` writes, of that time."""
    with network.lock:
        network.look(now_us)
        return {
            "rows": [printed_row(network, it) for it in sorted(network.rows.by_key.values(), key=place_of)],
            "missing": network.missing(),
            "sessions": [printed_session(it) for it in network.sessions.by_id.values()],
        }
