"""What the page is told: changes of the network, the history of a row, and telegrams field by field."""
from __future__ import annotations

import threading
import time
from typing import Any

from trdp_slot import DoesNotFit
from trdp_telegram import MD_HEADER, PD_HEADER, NoTelegram, header_fields, read_telegram

from .kept import Entry
from .network import Network
from .report import page_row, page_session
from .sessions import PAYLOAD_MOST
from .sources import Source
from .values import leaves, reading

LOOK_SECONDS = 0.2
"""How often at most silence and topology counters are looked at, for all browsers together."""
POINTS_MOST = 2000
"""The most telegrams of a row's history that are told at once, the latest ones."""


class NotThere(Exception):
    """There is no such row, session or telegram any more."""


class Page:
    """What all browsers are told of a network, whose telegrams come from a source."""

    REST = ("missing", "faults", "unread", "left_out", "dropped", "is_over")
    """What is small, and told whole with each change."""

    def __init__(self, network: Network, source: Source, title: str) -> None:
        self.network = network
        self.source = source
        self.title = title
        self.is_closing = threading.Event()
        self._looked = 0.0

    def changes(self, seen: int) -> dict[str, Any]:
        """What has changed since a version that was seen; all for 0. `version` is what is seen then."""
        network = self.network
        with network.lock:
            now_us = self.source.now_us()
            if not seen or time.monotonic() - self._looked >= LOOK_SECONDS:
                network.look(now_us)
                self._looked = time.monotonic()
            return {
                "version": network.version, "now_us": now_us,
                "rows": [page_row(network, it) for it in network.rows.by_key.values() if it.version > seen],
                "sessions": [page_session(network, it) for it in network.sessions.by_id.values() if it.version > seen],
                **self.rest(),
            }

    def rest(self) -> dict[str, Any]:
        """What REST names. The lock is held."""
        network = self.network
        return {
            "missing": network.missing(),
            "faults": [[*fault, count] for fault, count in network.faults.items()],
            "unread": self.source.unread(), "left_out": network.rows.left_out,
            "dropped": network.rows.dropped + network.sessions.dropped, "is_over": self.source.is_over,
        }

    def present(self) -> dict[str, Any]:
        """The numbers of the rows and the identifiers of the sessions that are there."""
        with self.network.lock:
            return {"numbers": [it.number for it in self.network.rows.by_key.values()],
                    "ids": [str(it) for it in self.network.sessions.by_id]}

    def begin(self) -> dict[str, Any]:
        """What a browser is told once: what is shown, and what the file says of its comIds."""
        known = self.network.file.known.values()
        return {
            "title": self.title,
            "telegrams": {it.com_id: {"name": it.name, "cycle_us": it.cycle_us, "time_us": it.time_us} for it in known},
        }

    def history(self, row: int, after_us: int) -> dict[str, Any]:
        """The telegrams of a row after that time: when each came, and the numbers in its value by their names."""
        with self.network.lock:
            entries = self.network.kept.of_row(row, after_us)[-POINTS_MOST:]
        return {"points": [[entry[0], self.numbers(entry)] for entry in entries]}

    def numbers(self, entry: Entry) -> dict[str, float]:
        """The numbers in the value of a datagram; none if it has no value."""
        try:
            telegram = read_telegram(entry[3], self.network.is_message(entry[2]))
            return leaves(self.network.file, telegram.com_id, telegram.payload)
        except (NoTelegram, DoesNotFit):
            return {}

    def row_telegram(self, number: int) -> dict[str, Any]:
        """The latest telegram of a row, field by field. Raises NotThere."""
        with self.network.lock:
            row = next((it for it in self.network.rows.by_key.values() if it.number == number), None)
            if row is None or row.telegram is None:
                raise NotThere
            time_us, data, is_message = row.latest_us, row.data, row.telegram.is_message
        return self.told(time_us, data, is_message)

    def session_telegram(self, session: str, index: int) -> dict[str, Any]:
        """A telegram of a session, field by field. Raises NotThere."""
        with self.network.lock:
            found = next((it for it in self.network.sessions.by_id.values() if str(it.session) == session), None)
            if found is None or not 0 <= index < len(found.messages):
                raise NotThere
            message = found.messages[index]
        return self.told(message.time_us, message.data, True)

    def told(self, time_us: int, data: bytes, is_message: bool) -> dict[str, Any]:
        """A telegram, field by field, the first bytes of its payload, and its value as people read it."""
        start = MD_HEADER if is_message else PD_HEADER
        file = self.network.file
        value = dataset = None
        try:
            telegram = read_telegram(data, is_message)
            dataset = file.datasets.title(file.dataset_of(telegram.com_id))
            value = reading(file, telegram.com_id, telegram.payload)
        except (NoTelegram, DoesNotFit):
            pass
        return {"at_us": time_us, "fields": header_fields(data, is_message), "dataset": dataset, "value": value,
                "data": data[start:start + PAYLOAD_MOST].hex(" ")}
