"""The node that an interface of a device becomes."""
from __future__ import annotations

from collections.abc import Iterator, Mapping
from dataclasses import dataclass, field
from ipaddress import IPv4Address

from ._datasets import NamedDataset
from ._qos import Qualities
from ._slots import Slot


@dataclass(frozen=True)
class Wanted:
    """What the command line asks for: an interface, None for the only one; the slots with their comIds, None for one
    slot of all; the comIds whose telegrams carry any bytes; and the first control port."""

    interface: str | None = None
    slots: Mapping[str, frozenset[int]] | None = None
    as_bytes: frozenset[int] = frozenset()
    port: int = 18000


@dataclass
class TelegramTable:
    """What the clients are told about a comId. A time that the file does not say is None."""

    com_id: int
    dataset: int
    name: str
    cycle_us: int | None = None
    time_us: int | None = None
    reply_us: int | None = None
    confirm_us: int | None = None

    def complete(self, cycle_us: int | None, time_us: int | None, reply_us: int | None, confirm_us: int | None) -> None:
        """Takes these times, unless it has its own."""
        self.cycle_us = cycle_us if self.cycle_us is None else self.cycle_us
        self.time_us = time_us if self.time_us is None else self.time_us
        self.reply_us = reply_us if self.reply_us is None else self.reply_us
        self.confirm_us = confirm_us if self.confirm_us is None else self.confirm_us

    def times(self) -> Iterator[tuple[str, int]]:
        """The times that are known, with their keys."""
        for key in ("cycle_us", "time_us", "reply_us", "confirm_us"):
            if (time := getattr(self, key)) is not None:
                yield key, time


@dataclass
class Node:
    """All that is written."""

    host: str
    interface: str
    address: IPv4Address
    process_port: int
    message_port: int
    operator_port: int
    groups: list[IPv4Address]
    qualities: Qualities
    slots: list[Slot]
    datasets: list[NamedDataset] = field(default_factory=list)
    telegrams: dict[int, TelegramTable] = field(default_factory=dict)
