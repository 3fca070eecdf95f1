"""What comes to the groups of a daemon's node: process and message data, distinguished by where they went."""
from __future__ import annotations

import socket
import sys
import unittest
import uuid

import testing
from test_ports import HOME, Case, Socket, control, node, notification
from testing import CONTROL, MD, PD
from trdp_telegram import Telegram, read_telegram

SOURCE = "127.0.8.9"
FIRST, SECOND, OTHER = "239.192.8.70", "239.192.8.71", "239.192.8.72"
QUOTAS = "subscriptions = 3\nlisteners = 3\nrepliers = 1"
GROUPS = f'groups = ["{FIRST}", "{SECOND}"]\n'
IP_RECVTTL = 12
# Of a subscription: from anybody, to that place, with a supervision of 100 s.
HEARS = "subscribe {} 0 0.0.0.0 0.0.0.0 {} 0 0 100000000 zero"
# Of a listener: from anybody, to that place.
LISTENS = "listen {} 0.0.0.0 0.0.0.0 {} - 0 0"


@unittest.skipUnless(testing.has_groups(), testing.NO_GROUPS)
class Groups(Case):
    """A node with two groups, and a process of this machine that joins them at the loopback."""

    def setUp(self) -> None:
        self.daemon(node(control(0, QUOTAS), control(1, "publishers = 1"), more=GROUPS))
        self.application = self.client(CONTROL)
        self.out = testing.sender(SOURCE)
        self.addCleanup(self.out.close)

    def joins(self, group: str) -> Socket:
        """A socket that has joined a group."""
        joined = testing.join("127.0.0.1", group)
        self.addCleanup(joined.close)
        return joined

    def says(self, line: str) -> str:
        """The answer to a line."""
        self.application.send(line.encode())
        return self.application.recv(4096).decode().rstrip("\n")

    def shows(self, handle: int) -> list[str]:
        """The state and the value that a subscription shows."""
        words = self.says(f"get {handle}").split()
        return [words[2], words[4]]

    def test_a_subscription_hears_the_place_that_it_names(self) -> None:
        joined = [self.joins(it) for it in (FIRST, SECOND, OTHER)]
        for number, place in enumerate([HOME, FIRST, SECOND], 1):
            self.assertEqual(self.says(HEARS.format(100, place)), f"0 handle {number}")
        for count, (place, payload) in enumerate([(SECOND, b"bb"), (OTHER, b"cc"), (FIRST, b"aa"), (HOME, b"dd")], 1):
            self.out.sendto(Telegram("Pd", 100, counter=count, payload=payload).write(), (place, PD))
        # They come to a port each, which are taken in any order.
        testing.wait_until(lambda: all(self.shows(it)[0] == "Valid" for it in (1, 2, 3)))
        self.assertEqual([self.shows(it)[1] for it in (1, 2, 3)], [it.hex() for it in (b"dd", b"aa", b"bb")])
        # No one has joined it any more: nothing comes.
        joined[0].close()
        self.out.sendto(Telegram("Pd", 100, counter=9, payload=b"ee").write(), (FIRST, PD))
        self.out.sendto(Telegram("Pd", 100, counter=9, payload=b"ff").write(), (HOME, PD))
        testing.wait_until(lambda: self.shows(1)[1] == b"ff".hex())
        self.assertEqual(self.shows(2)[1], b"aa".hex())

    def test_messages_are_told_to_who_listens_there_and_answered_from_its_own_place(self) -> None:
        for group in (FIRST, SECOND):
            self.joins(group)
        for number, place in enumerate([HOME, FIRST, SECOND], 1):
            self.assertEqual(self.says(LISTENS.format(300, place)), f"0 handle {number}")
        for place, handle in [(SECOND, 3), (FIRST, 2), (HOME, 1)]:
            self.out.sendto(notification(b"data"), (place, MD))
            self.assertEqual(self.hears()[:2], ["notified", str(handle)])
        # A request to a group is answered from the node's own address.
        asked = Telegram("Mr", 300, session=uuid.UUID(int=7), time_us=20_000_000)
        self.out.settimeout(20)
        self.out.sendto(asked.write(), (FIRST, MD))
        words = self.hears()
        self.assertEqual(words[:2], ["asked", "2"])
        self.assertEqual(self.says(f"reply {words[2]} 301 0 0d"), "0 done")
        answer, place = self.out.recvfrom(4096)
        self.assertEqual((read_telegram(answer, is_message=True).kind, place), ("Mp", (HOME, MD)))

    def test_two_slots_hear_each_other_where_the_device_has_joined(self) -> None:
        self.joins(FIRST)
        other = self.client(CONTROL + 1)
        for number, place in enumerate([HOME, FIRST], 1):
            self.assertEqual(self.says(HEARS.format(200, place)), f"0 handle {number}")
        self.answers(other, f"publish 200 0 20000 0 0 0 {FIRST}:{PD}".encode(), b"1 handle 1\n")
        self.answers(other, b"put 1 0a0b", b"1 done\n")
        testing.wait_until(lambda: self.shows(2) == ["Valid", "0a0b"])
        self.assertNotEqual(self.shows(1)[0], "Valid")

    def hears(self) -> list[str]:
        """The words of the next indication after the slot's number."""
        return self.application.recv(4096).decode().split()[1:]


@unittest.skipUnless(testing.has_groups(), testing.NO_GROUPS)
class Sends(Case):
    """How far a telegram goes, and what a daemon says of its groups."""

    def ttl_of(self, port: Socket, kind: str) -> int:
        """The time to live of the next telegram at a port, which is of that kind."""
        port.settimeout(20)
        port.setsockopt(socket.IPPROTO_IP, IP_RECVTTL, 1)
        data, told, _, source = port.recvmsg(65536, 64)
        self.assertEqual((read_telegram(data, is_message=kind == "Mn").kind, source[0]), (kind, HOME))
        (_, _, ttl), = told
        return int.from_bytes(ttl, sys.byteorder)

    def test_telegrams_live_as_long_as_the_configuration_says(self) -> None:
        for more, ttl in [("", 64), ("ttl = 9\n", 9)]:
            daemon = self.daemon(node(control(0, "publishers = 2"), more=more))
            application = self.client(CONTROL)
            with testing.join("127.0.0.1", FIRST, PD) as group, self.socket(SOURCE, PD) as one:
                for number, place in enumerate([FIRST, SOURCE], 1):
                    publish = f"publish 100 0 20000 0 0 0 {place}:{PD}"
                    self.answers(application, publish.encode(), b"0 handle %d\n" % number)
                    self.answers(application, b"put %d 0a0b" % number, b"0 done\n")
                self.assertEqual([self.ttl_of(it, "Pd") for it in (group, one)], [ttl, ttl])
            with testing.join("127.0.0.1", FIRST, MD) as group, self.socket(SOURCE, MD) as one:
                for place in (FIRST, SOURCE):
                    self.answers(application, f"notify 300 - - 0 0 {place}:{MD} 0a0b".encode(), b"0 done\n")
                self.assertEqual([self.ttl_of(it, "Mn") for it in (group, one)], [ttl, ttl])
            daemon.end()

    def test_it_warns_of_groups_that_no_link_has_joined(self) -> None:
        with testing.join("127.0.0.1", SECOND):
            daemon = self.daemon(node(control(0), more=GROUPS))
        said = daemon.path.with_suffix(".errors").read_text().splitlines()
        self.assertEqual([it for it in said if it.startswith("warning: no link")],
                         [f"warning: no link has joined the group {FIRST}: nothing comes from there"])
