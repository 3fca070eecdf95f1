"""Addresses of sources and destinations, as the words of a call."""
from __future__ import annotations

from ipaddress import IPv4Address
from typing import NamedTuple

from ._device import Destination, Source, Uri
from ._hosts import Hosts, address_of
from ._report import Report
from ._shown import shown, word_of

ANY = IPv4Address(0)
GROUPS_MOST = 32
URI_MOST = 32
SENDERS_MOST = 8
"""The most repliers that a listener gets."""


class Range(NamedTuple):
    """The addresses of a source: LOW and HIGH of a call, how many senders that are, and whether each is known."""

    low: str
    high: str
    senders: int
    is_known: bool


class Target(NamedTuple):
    """The address of a destination, as a word of a call, and whether it is known."""

    address: str
    is_known: bool

    @property
    def is_nowhere(self) -> bool:
        """Whether the file names no address."""
        return self.address == str(ANY)


class Places:
    """The addresses of an interface's telegrams, and the groups from which it takes them."""

    def __init__(self, own: IPv4Address, hosts: Hosts, report: Report) -> None:
        self.groups: list[IPv4Address] = []
        self._own = own
        self._hosts = hosts
        self._report = report

    def range_of(self, source: Source | None) -> Range:
        """The addresses from which a telegram comes. A second URI of 0.0.0.0 is none."""
        uris = [it for it in source.uris if it.host] if source else []
        found = [self._address(it) for it in uris]
        if found[1:] == [ANY]:
            uris, found = uris[:1], found[:1]
        known = sorted(it for it in found if it is not None)
        if len(known) < len(uris):
            words = [str(address or word_of(uri.host)) for uri, address in zip(uris, found)]
            return Range(words[0], words[-1], SENDERS_MOST, False)
        if not known:
            return Range(str(ANY), str(ANY), SENDERS_MOST, True)
        low, high = known[0], known[-1]
        if int(high) - int(low) > 1:
            self._report.loss(uris[0].line, f"the range {low} to {high} accepts other addresses, too")
        if low == ANY:
            return Range(str(ANY), str(ANY), SENDERS_MOST, True)
        return Range(str(low), str(high), min(SENDERS_MOST, int(high) - int(low) + 1), True)

    def taken_at(self, destination: Destination | None) -> Target:
        """DEST of a telegram that comes: a group or the own address, else 0.0.0.0."""
        target = self.sent_to(destination)
        if not target.is_known or target.is_nowhere or destination is None or destination.uri is None:
            return target
        address = IPv4Address(target.address)
        if address.is_multicast:
            return Target(target.address, self._joins(address, destination.uri.line))
        if address != self._own:
            self._report.loss(destination.uri.line, f"the destination {address} is neither a group nor the own "
                                                    f"address: DEST is {ANY}")
            return Target(str(ANY), True)
        return target

    def sent_to(self, destination: Destination | None) -> Target:
        """Where a telegram goes; 0.0.0.0 if the file does not say it."""
        uri = destination.uri if destination else None
        if uri is None or not uri.host:
            return Target(str(ANY), True)
        address = self._address(uri)
        return Target(word_of(uri.host) if address is None else str(address), address is not None)

    def user_of(self, uri: Uri | None) -> str | None:
        """The user of a URI, as a word of a call; None if it is too long for a telegram."""
        user = uri.user.encode() if uri else b""
        if uri and len(user) > URI_MOST:
            self._report.loss(uri.line, f"the user {shown(uri.user)} has more than {URI_MOST} bytes: each call with it "
                                        "is a remark")
            return None
        return user.hex() or "-"

    def _address(self, uri: Uri) -> IPv4Address | None:
        """The address of a host; None if it is unknown, which is a loss."""
        address = address_of(uri.host, self._hosts)
        if address is None:
            self._report.loss(uri.line, f"the host {shown(uri.host)} has no address: each call with it is a remark")
        return address

    def _joins(self, group: IPv4Address, line: int) -> bool:
        """Whether the node can be in a group."""
        if group not in self.groups:
            if len(self.groups) == GROUPS_MOST:
                self._report.loss(line, f"a node has at most {GROUPS_MOST} groups: each call with {group} is a remark")
                return False
            self.groups.append(group)
        return True
