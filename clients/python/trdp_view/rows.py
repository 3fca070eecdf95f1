"""The rows of the table: what is known of the telegrams of each source, destination, comId and type."""
from __future__ import annotations

from collections import OrderedDict, deque
from collections.abc import Collection
from dataclasses import dataclass, field
from enum import StrEnum
from typing import Any, NamedTuple

from trdp_ports import Datagram
from trdp_slot import TelegramTable
from trdp_telegram import Telegram

from .counting import Counting, Step
from .cycles import Cycles
from .known import File

ROWS_MOST = 1000
"""The most rows. If there are so many, a new one takes the place of one that was long quiet, or is left out."""
QUIET_US = 60_000_000
"""After how much time without a telegram a row may give way."""
CYCLES_MISSED = 3
"""Data is silent once it hasn't come for so many cycles, unless the file names its supervision time."""
TIMES_LEAST, SILENCE_LEAST_US = 3, 100_000
"""If the file names no cycle, so many times between telegrams have to be known, and data is never silent sooner."""
SAME_TIME_US = 1_000_000
"""Two sources send at the same time if one sends between two telegrams of the other, and the other wasn't silent
between them: if that isn't known, they are at most so far apart."""
PULLED_MOST = 16
"""How many counters of answers to pull requests are kept of each sender."""


class Mark(StrEnum):
    """What is wrong with a row."""

    UNKNOWN = "unknown"
    """The file has no [[telegram]] of this comId."""
    NO_VALUE = "no value"
    """A payload was no value of the comId's dataset."""
    TWO_SOURCES = "two sources"
    """Another source sent the same comId at the same time."""
    COUNTERS = "counters"
    """The topology counters of the latest telegram differ from those of the other rows."""
    HEADER_FCS = "headerFcs"
    """A telegram had a wrong headerFcs."""


class Key(NamedTuple):
    """Which telegrams a row is about: their source, destination, comId and type."""

    source: str
    dest: str
    com_id: int
    kind: str


@dataclass(slots=True)
class Row:
    """What is known of the telegrams of a key. Those with a wrong headerFcs are only counted, and marked."""

    number: int
    key: Key
    known: TelegramTable | None
    heard_us: int = 0
    count: int = 0
    wrong: int = 0
    latest_us: int = 0
    telegram: Telegram | None = None
    data: bytes = b""
    is_fault: bool = False
    """Whether the latest payload is no value of the comId's dataset."""
    counting: Counting = field(default_factory=Counting)
    cycles: Cycles = field(default_factory=Cycles)
    marked: dict[Mark, int] = field(default_factory=dict)
    """When each mark was last so: only of those that the telegrams themselves bring."""
    differs: bool = False
    """Whether its topology counters differ from those of the other rows."""
    is_silent: bool = False
    version: int = 0
    """The version of the network in which it changed last."""
    value: tuple[bytes, Any] | None = None
    """The payload that was unpacked last, and its value."""
    text: tuple[bytes, str] | None = None
    """The same, and what people read of it."""
    told: tuple[int, dict[str, Any]] | None = None
    """The version of which the page was told, and what it was told."""

    @property
    def is_data(self) -> bool:
        """Whether its telegrams are process data that is sent by itself."""
        return self.key.kind == "Pd"

    def marks(self, has_file: bool) -> list[Mark]:
        """What is or was wrong with it, in the order of the marks."""
        found = {*self.marked, *[Mark.COUNTERS] * self.differs, *[Mark.UNKNOWN] * (has_file and self.known is None)}
        return [it for it in Mark if it in found]

    def silence_us(self) -> int | None:
        """After how much time without a telegram it is silent; None if that isn't known, or it never is."""
        if self.key.kind not in ("Pd", "Pp"):
            return None
        if self.known is not None and self.known.time_us:
            return self.known.time_us
        if not self.is_data:
            return None
        if self.known is not None and self.known.cycle_us:
            return CYCLES_MISSED * self.known.cycle_us
        median = self.cycles.median_us() if self.cycles.count >= TIMES_LEAST else None
        return None if median is None else max(SILENCE_LEAST_US, CYCLES_MISSED * median)

    def looks_silent(self, now_us: int) -> bool:
        """Whether it is silent at that time."""
        silence = self.silence_us() if self.telegram is not None else None
        return silence is not None and now_us - self.latest_us > silence

    def take(self, telegram: Telegram, came: Datagram, pulled: Collection[int]) -> None:
        """Takes a telegram with a right headerFcs. `pulled` are the counters of its sender's answers to pull
        requests."""
        self.count += 1
        if self.is_counted(telegram, pulled):
            self.cycles.take(came.time_us, len(came.data))
        self.latest_us = max(self.latest_us, came.time_us)
        self.telegram, self.data = telegram, came.data

    def is_counted(self, telegram: Telegram, pulled: Collection[int]) -> bool:
        """Takes the counter of a telegram. Answers whether the telegram is a new one, and none that came again."""
        if telegram.is_message:
            # The counter of a request is how often it was sent before.
            self.counting.repeats += telegram.counter > 0
            return True
        if self.key.kind == "Pp":
            # It goes on with the counter of the data that the publisher sends by itself.
            return True
        return self.counting.take(telegram.counter, pulled) is not Step.REPEAT


class Rows:
    """All rows, by their keys and numbers, the one that was quiet longest first."""

    def __init__(self, file: File) -> None:
        self.file = file
        self.by_key: OrderedDict[Key, Row] = OrderedDict()
        self.version = 0  # that of the network
        self.left_out = 0  # how many telegrams were of rows that are left out
        self.dropped = 0  # how many rows gave way
        self._made = 0
        self._talking: dict[int, Row] = {}  # of each comId of data, the row whose telegram came last
        self._pulled: dict[tuple[str, int], deque[int]] = {}  # of each source and comId

    def find(self, key: Key, time_us: int) -> Row | None:
        """The row of a key, which may be a new one; None if there are too many."""
        row = self.by_key.get(key)
        if row is None:
            if len(self.by_key) >= ROWS_MOST and not self.give_way(time_us):
                self.left_out += 1
                return None
            self._made += 1
            row = self.by_key[key] = Row(self._made, key, self.file.known.get(key.com_id))
        self.by_key.move_to_end(key)
        row.heard_us = max(row.heard_us, time_us)
        row.version = self.version
        return row

    def give_way(self, time_us: int) -> bool:
        """Drops the row that was quiet longest, if it was so for long. Answers whether it did."""
        key, row = next(iter(self.by_key.items()))
        if time_us - row.heard_us < QUIET_US:
            return False
        del self.by_key[key]
        self.dropped += 1
        self._pulled.pop((key.source, key.com_id), None)
        if self._talking.get(key.com_id) is row:
            del self._talking[key.com_id]
        return True

    def take(self, telegram: Telegram, came: Datagram) -> Row | None:
        """Takes a telegram. Answers its row; None if that is left out."""
        row = self.find(Key(came.source[0], came.dest[0], telegram.com_id, telegram.kind), came.time_us)
        if row is None:
            return None
        sender = row.key.source, row.key.com_id
        if row.key.kind == "Pp":
            self._pulled.setdefault(sender, deque(maxlen=PULLED_MOST)).append(telegram.counter)
        if row.is_data:
            self.look_for_sources(row, came.time_us)
        if row.telegram is None or row.telegram.payload != telegram.payload:
            row.is_fault = self.file.is_fault(telegram)
        if row.is_fault:
            row.marked[Mark.NO_VALUE] = came.time_us
        row.take(telegram, came, self._pulled.get(sender, ()))
        return row

    def take_wrong(self, telegram: Telegram, came: Datagram) -> Row | None:
        """Takes a telegram with a wrong headerFcs. Answers its row; None if that is left out."""
        row = self.find(Key(came.source[0], came.dest[0], telegram.com_id, telegram.kind), came.time_us)
        if row is not None:
            row.count += 1
            row.wrong += 1
            row.marked[Mark.HEADER_FCS] = came.time_us
        return row

    def look_for_sources(self, row: Row, time_us: int) -> None:
        """Marks the rows of two sources that send data of one comId at the same time."""
        other = self._talking.get(row.key.com_id)
        self._talking[row.key.com_id] = row
        if other is None or other.key.source == row.key.source or row.telegram is None:
            return
        # The other source sent since this one's telegram before.
        if time_us - row.latest_us <= (row.silence_us() or SAME_TIME_US):
            row.marked[Mark.TWO_SOURCES] = other.marked[Mark.TWO_SOURCES] = time_us
            other.version = self.version
