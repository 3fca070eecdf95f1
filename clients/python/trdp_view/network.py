"""What is known of the network: its rows, its sessions, and what is no telegram. All of it takes bounded memory."""
from __future__ import annotations

import threading
from collections import Counter
from collections.abc import Callable, Iterable
from typing import NamedTuple

from trdp_ports import Datagram
from trdp_telegram import NoTelegram, Telegram, read_telegram

from .kept import Kept
from .known import File
from .rows import Row, Rows
from .sessions import Sessions

FAULTS_MOST = 100
"""Of how many sources, destinations and faults datagrams that are no telegrams are counted."""
TOGETHER_US = 60_000_000
"""The topology counters of a row are compared while its latest telegram is no older than this."""


class Fault(NamedTuple):
    """Datagrams that are no telegrams: from where to where, and what is wrong with them."""

    source: str
    dest: str
    name: str


class Network:
    """What is known of the network. `lock` is held by whoever reads or changes it.

    `version` rises with each change, and each row and session has the version in which it changed last: so whoever has
    seen a version can be told of all later changes.
    """

    def __init__(self, file: File, md_port: int, keep_seconds: float = 0.0) -> None:
        self.lock = threading.Lock()
        self.file = file
        self.md_port = md_port
        self.rows = Rows(file)
        self.sessions = Sessions(file)
        self.kept = Kept(keep_seconds)
        self.faults: Counter[Fault] = Counter()
        self.seen: set[int] = set()  # the comIds of the file that were seen
        self.version = 0

    def missing(self) -> list[int]:
        """The comIds of the file that were never seen."""
        return sorted(self.file.known.keys() - self.seen)

    def is_message(self, dest: tuple[str, int]) -> bool:
        """Whether a telegram to that place is message data."""
        return dest[1] == self.md_port

    def add(self, came: Datagram) -> None:
        """Takes a datagram that came to one of the ports."""
        is_message = self.is_message(came.dest)
        self.version += 1
        self.rows.version = self.version
        try:
            row = self.take(read_telegram(came.data, is_message), came)
        except NoTelegram as fault:
            row = self.take_fault(came, is_message, fault.name)
        self.kept.add(came, row.number if row is not None else 0)

    def take(self, telegram: Telegram, came: Datagram) -> Row | None:
        """Takes a telegram. Answers its row; None if that is left out."""
        if telegram.com_id in self.file.known:
            self.seen.add(telegram.com_id)
        session = self.sessions.take(telegram, came) if telegram.is_message else None
        if session is not None:
            session.version = self.version
        return self.rows.take(telegram, came)

    def take_fault(self, came: Datagram, is_message: bool, name: str) -> Row | None:
        """Takes what is no telegram. Answers its row, if it is one but for its headerFcs."""
        if name == "Fcs":
            try:
                return self.rows.take_wrong(read_telegram(came.data, is_message, is_checked=False), came)
            except NoTelegram:
                pass
        fault = Fault(came.source[0], came.dest[0], name)
        if fault in self.faults or len(self.faults) < FAULTS_MOST:
            self.faults[fault] += 1
        return None

    def look(self, now_us: int) -> None:
        """Looks at what changes by time alone: silence, topology counters, and what never came."""
        rows = self.rows.by_key.values()
        differs = differing(rows, now_us)
        self.version += 1
        for row in rows:
            found = row.looks_silent(now_us), row.number in differs
            if found != (row.is_silent, row.differs):
                row.is_silent, row.differs = found
                row.version = self.version
        for session in self.sessions.by_id.values():
            never = session.missing(now_us)
            if never != session.never:
                session.never = never
                session.version = self.version


def differing(rows: Iterable[Row], now_us: int) -> set[int]:
    """The numbers of the rows of late whose topology counters differ from those of most others. A counter of 0 matches
    each."""
    found: set[int] = set()
    latest = [(row.number, row.telegram) for row in rows
              if row.telegram is not None and now_us - row.latest_us <= TOGETHER_US]
    counters: tuple[Callable[[Telegram], int], ...] = (lambda it: it.etb, lambda it: it.op_trn)
    for counter in counters:
        counts = Counter(counter(telegram) for _, telegram in latest if counter(telegram))
        ordered = counts.most_common(2)
        # If none has the most rows, each differs from the others.
        usual = ordered[0][0] if ordered and (len(ordered) == 1 or ordered[0][1] > ordered[1][1]) else None
        found |= {number for number, telegram in latest if counter(telegram) not in (0, usual)}
    return found
