"""A door controller and a driver's desk, each a daemon on this machine, for the tests."""
from __future__ import annotations

import unittest
from collections.abc import Callable
from typing import Any

from testing import CONTROL, MD, OPERATOR, PD, SECOND, Daemon
from trdp_slot import Closed, Handle, Refused, Slot

DOOR, DESK, SINK, FRONT = "127.0.8.1", "127.0.8.2", "127.0.8.3", "127.0.8.4"

NODE = """
[node]
address = "{address}"
pd_port = {pd}
md_port = {md}
operator_port = {operator}
spare_control_ports = [{spare}]
[[slot]]
publishers = 4
subscriptions = 4
requesters = 2
listeners = 2
callers = 4
repliers = 2
control_port = {control}
"""

# 1001: a count and that many numbers; 1002: with a time, and a dataset; 1500: longer than process data carries.
DATASETS = """
[[dataset]]
id = 1001
element = [{ type = "UINT8" }, { type = "UINT16", size = 0 }]
[[dataset]]
id = 1002
element = [{ type = "INT16" }, { type = 15 }, { type = 1001 }]
[[dataset]]
id = 1500
element = [{ type = "UINT8", size = 1433 }]
[[dataset]]
id = 1600
element = [{ type = "UINT16" }, { type = "UINT8", size = 0 }]
"""


def node(address: str, datasets: str = DATASETS) -> str:
    """The configuration of a node there."""
    return NODE.format(address=address, pd=PD, md=MD, operator=OPERATOR, control=CONTROL, spare=CONTROL + 1) + datasets


class Case(unittest.TestCase):
    """A door controller and a driver's desk, each a daemon and a client of its slot."""

    def setUp(self) -> None:
        self.daemons: list[Daemon] = []
        self.door, self.desk = self.daemon(DOOR), self.daemon(DESK)

    def daemon(self, address: str, datasets: str = DATASETS, **words: Any) -> Slot:
        """The client of a daemon of its own."""
        daemon = Daemon(node(address, datasets))
        self.daemons.append(daemon)
        self.addCleanup(daemon.close)
        return self.client(Slot(str(daemon.path), 0, answer_us=SECOND, **words))

    def client(self, slot: Slot) -> Slot:
        """A client that is closed after the test, whose daemon is there."""
        self.addCleanup(slot.close)
        slot.sync()
        return slot

    def told(self, slot: Slot, kind: type) -> Any:
        """The next indication, of that kind."""
        told = slot.next_indication(20 * SECOND)
        self.assertIsInstance(told, kind)
        return told

    def closed(self, slot: Slot, handle: Handle, reason: str) -> None:
        """The next indication says that the object is over, for that reason."""
        told = self.told(slot, Closed)
        self.assertEqual(told, Closed(handle, reason))

    def refused(self, name: str, call: Callable[..., Any], *words: Any, **named: Any) -> None:
        """The call is refused by that name."""
        with self.assertRaises(Refused) as caught:
            call(*words, **named)
        self.assertEqual(caught.exception.name, name)
