"""What becomes of a telegram: the calls that make its objects."""
from __future__ import annotations

import enum
import itertools
from collections.abc import Iterator
from dataclasses import dataclass
from ipaddress import IPv4Address
from typing import NamedTuple

from ._device import REPLY_TIMEOUT, Destination, Direction, Interface, Quality, Source, Telegram
from ._places import Places, Target
from ._report import Report
from ._roles import Roles
from ._times import Times

RETRIES_MOST = 2


class Kind(enum.Enum):
    """A kind of object, by the name of its quota. In this order a slot's file has those of a telegram."""

    PUBLISHER = "publishers"
    SUBSCRIPTION = "subscriptions"
    CALLER = "callers"
    LISTENER = "listeners"


@dataclass(frozen=True)
class Call:
    """The call that makes an object of a slot. A request of a caller is a remark, because it is made later."""

    kind: Kind
    name: str
    lines: tuple[str, ...]
    """What the slot's file has of it."""
    is_made: bool = False
    """Whether the last line is a call, and no remark."""
    dataset: int = 0
    senders: int = 0
    """How many repliers a listener gets."""


class Use(NamedTuple):
    """How a telegram is used here."""

    direction: Direction
    is_process: bool
    is_message: bool

    def count_of(self, kind: Kind, telegram: Telegram) -> int:
        """How many objects of a kind a telegram has."""
        is_there = self.is_process if kind in (Kind.PUBLISHER, Kind.SUBSCRIPTION) else self.is_message
        if kind in (Kind.PUBLISHER, Kind.CALLER):
            destinations = max(1, len(telegram.destinations)) if kind is Kind.PUBLISHER else 1
            return destinations if is_there and self.direction.sends else 0
        pairs = max(1, len(telegram.sources)) * max(1, len(telegram.destinations))
        return pairs if is_there and self.direction.takes else 0


class Calls:
    """The calls of an interface's telegrams."""

    def __init__(self, interface: Interface, places: Places, roles: Roles, report: Report) -> None:
        self.times = Times(interface, report)
        self._interface = interface
        self._places = places
        self._roles = roles
        self._report = report

    def of_kind(self, kind: Kind, telegram: Telegram, dataset: int, quality: Quality | None,
                names: Iterator[str]) -> Iterator[Call]:
        """The calls that make the objects of a kind, one after the other. Each takes one of the names."""
        if kind is Kind.PUBLISHER:
            return self._publishers(telegram, dataset, names)
        if kind is Kind.SUBSCRIPTION:
            return self._subscriptions(telegram, dataset, names)
        if kind is Kind.LISTENER:
            return self._listeners(telegram, names)
        return iter([self._caller(telegram, quality, next(names))])

    def _publishers(self, telegram: Telegram, dataset: int, names: Iterator[str]) -> Iterator[Call]:
        """A publisher for each destination."""
        cycle = self.times.cycle(telegram)
        group = self._roles.group_of(telegram.process)
        for destination in telegram.destinations or (None,):
            name, target = next(names), self._places.sent_to(destination)
            if cycle is None:
                self._report.note(telegram.line, f"{name} has no cycle: it is sent only when it is pulled")
            elif target.is_nowhere and cycle:
                self._report.loss(telegram.line, f"{name} has no destination: it is sent only when it is pulled")
            line = (f"publish {telegram.com_id} {dataset} {0 if target.is_nowhere else cycle or 0} "
                    f"{'GROUP' if group is None else group} 0 0 {target.address}:{self._interface.process_port}")
            is_made = telegram.is_on and target.is_known and group is not None
            yield call_of(Kind.PUBLISHER, name, line, is_made, dataset)

    def _subscriptions(self, telegram: Telegram, dataset: int, names: Iterator[str]) -> Iterator[Call]:
        """A subscription for each pair of a source and a destination."""
        time, behaviour = self.times.timeout(telegram), self.times.behaviour(telegram)
        for source, destination in pairs_of(telegram):
            senders, target = self._places.range_of(source), self._places.taken_at(destination)
            line = (f"subscribe {telegram.com_id} {dataset} {senders.low} {senders.high} {target.address} 0 0 {time} "
                    f"{behaviour}")
            is_made = telegram.is_on and senders.is_known and target.is_known
            yield call_of(Kind.SUBSCRIPTION, next(names), line, is_made, dataset)

    def _listeners(self, telegram: Telegram, names: Iterator[str]) -> Iterator[Call]:
        """A listener for each such pair."""
        for source, destination in pairs_of(telegram):
            senders, target = self._places.range_of(source), self._places.taken_at(destination)
            user = self._places.user_of(destination.uri if destination else None)
            line = f"listen {telegram.com_id} {senders.low} {senders.high} {target.address} {user or 'URI'} 0 0"
            is_made = telegram.is_on and senders.is_known and target.is_known and user is not None
            yield call_of(Kind.LISTENER, next(names), line, is_made, senders=senders.senders)

    def _caller(self, telegram: Telegram, quality: Quality | None, name: str) -> Call:
        """A caller, with a remark for each destination that says how it is asked."""
        uris = [it for source in telegram.sources for it in source.uris]
        user = self._places.user_of(uris[0] if uris else None) or "URI"
        reply = self.times.reply(telegram) or REPLY_TIMEOUT
        retries = self._retries(quality)
        lines = []
        for destination in telegram.destinations or (None,):
            target = self._places.sent_to(destination)
            to = self._places.user_of(destination.uri if destination else None) or "URI"
            place = "PLACE" if target.is_nowhere else f"{target.address}:{self._interface.message_port}"
            lines.append(f"# {name}: request {telegram.com_id} SESSION {expected_of(target)} {reply} {user} {to} 0 0 "
                         f"{place} HEX{f' {retries}' if retries else ''}")
        return Call(Kind.CALLER, name, tuple(lines))

    def _retries(self, quality: Quality | None) -> int:
        """How often a request is sent again."""
        own = quality if quality and quality.retries is not None else self._interface.message_quality
        if (own.retries or 0) > RETRIES_MOST:
            self._report.loss(own.line, f"retries {own.retries}: a request is sent again twice at most")
        return min(own.retries or 0, RETRIES_MOST)


def call_of(kind: Kind, name: str, line: str, is_made: bool, dataset: int = 0, senders: int = 0) -> Call:
    """A call with the remark before it."""
    return Call(kind, name, (f"# {name}", line if is_made else f"# {line}"), is_made, dataset, senders)


def pairs_of(telegram: Telegram) -> Iterator[tuple[Source | None, Destination | None]]:
    """Each pair of a source and a destination of a telegram; None if it has none."""
    return itertools.product(telegram.sources or (None,), telegram.destinations or (None,))


def expected_of(target: Target) -> int:
    """How many answers a request expects: one from an address, any number from a group."""
    return 0 if target.is_known and IPv4Address(target.address).is_multicast else 1
