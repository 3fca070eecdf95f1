"""The rules of nft that give telegrams their DSCP and their TTL."""
from __future__ import annotations

from typing import NamedTuple

from ._device import MD_QOS, PD_QOS, TTL, Interface, Quality, Telegram
from ._report import Report


class Sent(NamedTuple):
    """How telegrams are sent: the class of service and the TTL."""

    qos: int
    ttl: int


class Qualities:
    """How the telegrams of an interface are sent, and the single ones that differ."""

    def __init__(self, interface: Interface, report: Report) -> None:
        self.process = sent_by(interface.process_quality, Sent(PD_QOS, TTL))
        self.message = sent_by(interface.message_quality, Sent(MD_QOS, TTL))
        self._ports = interface.process_port, interface.message_port
        self._single: dict[tuple[bool, int], Sent] = {}
        self._report = report

    def add(self, telegram: Telegram, is_message: bool, quality: Quality | None) -> None:
        """Notes how a telegram is sent. Telegrams of one comId are sent in one way."""
        common = self.message if is_message else self.process
        sent = sent_by(quality, common) if quality else common
        if self._single.setdefault((is_message, telegram.com_id), sent) != sent:
            self._report.loss(telegram.line, f"comId {telegram.com_id} has a second class of service or TTL: qos.nft "
                                             "has the first")

    def rules(self) -> list[str]:
        """The rules, of which a later one holds: those of the interface come first."""
        found = [f"udp sport {port} ip dscp set cs{sent.qos} ip ttl set {sent.ttl}"
                 for port, sent in zip(self._ports, (self.process, self.message))]
        for (is_message, com_id), sent in self._single.items():
            common = self.message if is_message else self.process
            # The comId is behind the 8 bytes of the UDP header, and 8 of the telegram's own.
            words = [f"udp sport {self._ports[is_message]} @th,128,32 {com_id}"]
            words += [f"ip dscp set cs{sent.qos}"] if sent.qos != common.qos else []
            words += [f"ip ttl set {sent.ttl}"] if sent.ttl != common.ttl else []
            found += [" ".join(words)] if len(words) > 1 else []
        return found


def sent_by(quality: Quality, common: Sent) -> Sent:
    """How a telegram is sent whose parameters say this; what they leave out is common."""
    return Sent(common.qos if quality.qos is None else quality.qos, common.ttl if quality.ttl is None else quality.ttl)
