"""What a device configuration says, as far as it means something to a node."""
from __future__ import annotations

import enum
from dataclasses import dataclass
from ipaddress import IPv4Address
from typing import NamedTuple

# What holds if neither a telegram nor its interface says anything: the defaults of the standard, as TCNopen has them.
PD_PORT, MD_PORT = 17224, 17225
PD_QOS, MD_QOS, TTL = 5, 3, 64
PD_TIMEOUT, REPLY_TIMEOUT = 100_000, 5_000_000


class Direction(enum.Enum):
    """The type of a telegram."""

    SOURCE = "source"
    SINK = "sink"
    BOTH = "source-sink"

    @property
    def sends(self) -> bool:
        """Whether the device sends the telegram."""
        return self is not Direction.SINK

    @property
    def takes(self) -> bool:
        """Whether the device takes the telegram."""
        return self is not Direction.SOURCE


class Span(NamedTuple):
    """A cycle or a time-out in microseconds, with the line and the attribute that say it."""

    line: int
    name: str
    time: int


class Uri(NamedTuple):
    """A URI: the user before its `@`, "" for none, and the host behind it, "" for none."""

    line: int
    user: str
    host: str


@dataclass(frozen=True)
class Element:
    """An element of a dataset. Its type is the name of a basic type or the number of a dataset."""

    line: int
    name: str
    type: str | int
    size: int
    unit: str
    scale: float
    offset: float


@dataclass(frozen=True)
class DataSet:
    """A dataset."""

    line: int
    number: int
    name: str
    elements: tuple[Element, ...]


@dataclass(frozen=True)
class Quality:
    """How telegrams are sent: the class of service, the time to live, and how often a request is sent again."""

    line: int
    qos: int | None
    ttl: int | None
    retries: int | None


@dataclass(frozen=True)
class ProcessParameter:
    """How process data is sent and supervised."""

    line: int
    cycle: Span | None
    timeout: Span | None
    behaviour: str | None
    redundant: int


@dataclass(frozen=True)
class MessageParameter:
    """How messages are sent and waited for. `protocol` is UDP, TCP or None."""

    line: int
    reply: Span | None
    confirm: Span | None
    protocol: str | None


@dataclass(frozen=True)
class Source:
    """Who sends a telegram: at most two URIs. `safe_line` is the line of an sdt-parameter."""

    uris: tuple[Uri, ...]
    safe_line: int | None


@dataclass(frozen=True)
class Destination:
    """Where a telegram goes."""

    uri: Uri | None
    safe_line: int | None


@dataclass(frozen=True)
class Telegram:
    """A telegram of an interface. `type` is None if the file does not say it, and `quality` the number of a
    com-parameter."""

    line: int
    name: str
    com_id: int
    dataset: int
    quality: int | None
    type: Direction | None
    is_on: bool
    process: ProcessParameter | None
    message: MessageParameter | None
    sources: tuple[Source, ...]
    destinations: tuple[Destination, ...]


@dataclass(frozen=True)
class Interface:
    """An interface: a node of its own. `process` and `message` are what its telegrams have that say nothing else."""

    line: int
    name: str
    address: IPv4Address | None
    leader: IPv4Address | None
    process: ProcessParameter
    process_port: int
    process_quality: Quality
    message: MessageParameter
    message_port: int
    message_quality: Quality
    telegrams: tuple[Telegram, ...]


class Mapped(NamedTuple):
    """A mapped device, which is left out."""

    line: int
    host: str


@dataclass(frozen=True)
class Device:
    """A device, with its datasets by their numbers, and its com-parameters by theirs."""

    line: int
    host: str
    interfaces: tuple[Interface, ...]
    mapped: tuple[Mapped, ...]
    qualities: dict[int, Quality]
    datasets: dict[int, DataSet]
