"""A client whose slot restarts: after an application that was killed, a daemon that was started again, a lease; and
while it makes its objects again."""
from __future__ import annotations

import itertools
import os
import signal
import time
from collections.abc import Callable
from typing import Any
from unittest import mock

import test_ends
from test_edge import is_in
from test_ends import LEASE, NEW, Display
from test_paths import ANSWER_US, MARGIN, Clients
from test_ports import DEVICE, HOME
from testing import CONTROL, MD, PD, SECOND, Relay, wait_until
from trdp_slot import Handle, Kinds, NoAnswer, Nobody, Notified, Refused, Restarted, Slot, _hearing
from trdp_telegram import Telegram

FRONT = "127.0.8.9"
TRIES = 3
# For how long an answer is waited for that isn't lost.
LONG_US = 5 * SECOND
WHOLE = Kinds(2, 1, 1, 1, 0, 0)


class Successors(test_ends.Ends):
    """Wherever an application was killed, a client that comes after it has the whole slot, and no earlier value is
    seen beside its own."""

    def test_at_a_port_without_a_lease(self) -> None:
        self.is_at_paths = False
        self.ends([it for it in test_ends.ENDS if it.is_at_ports], 0)

    def remark(self, display: Display, clients: list[Slot]) -> None:
        """They say that they are there, so that no lease ends them."""
        test_ends.remark(display.speaker)
        for client in clients:
            client.begin()

    def ends(self, ends: list[test_ends.End], lease: float, *words: str) -> None:
        """Has an application end in each of these ways, and a client come after it."""
        display = self.are_killed(ends, *words)
        clients = [self.succeeds(it, lease) for it in range(len(ends))]
        for slot, end in enumerate(ends):
            self.remark(display, clients[:slot])
            with self.subTest(end.name):
                publishers = [clients[slot].publish(slot, f"{HOME}:{PD}", cycle_us=10_000) for _ in range(2)]
                self.assertEqual([it.number for it in publishers], [end.handles + 1, end.handles + 2])
                self.assertRaises(Refused, clients[slot].publish, slot, f"{HOME}:{PD}")
                clients[slot].put(publishers[0], bytes.fromhex(NEW.decode()))
                clients[slot].listen(slot)
        self.are_seen(display, clients, ends)

    def succeeds(self, slot: int, lease: float) -> Slot:
        """The client that comes after the application of a slot."""
        words: dict[str, Any] = {"answer_us": LONG_US, "lease_us": int(lease * SECOND) or None}
        client = Slot(self.folder if self.is_at_paths else HOME, CONTROL + slot, **words)
        self.addCleanup(client.close)
        return client

    def are_seen(self, display: Display, clients: list[Slot], ends: list[test_ends.End]) -> None:
        """From the first look on that shows a client's value none shows another one. It gets nothing from before."""
        seen: list[list[tuple[bytes, int, bytes]]] = [[] for _ in ends]

        def is_enough() -> bool:
            for slot, so_far in enumerate(seen):
                self.remark(display, clients)
                looks = display.looks(slot + 1, 100)
                so_far += looks if so_far else itertools.dropwhile(lambda it: it[2] != NEW, looks)
            return all(len(it) >= test_ends.LOOKS and it[-1][1] >= it[0][1] + test_ends.TELEGRAMS for it in seen)

        wait_until(is_enough, seconds=test_ends.LOOKED)
        for slot, end in enumerate(ends):
            with self.subTest(end.name):
                self.assertEqual({value for _, _, value in seen[slot]}, {NEW})
                self.assertIsNone(clients[slot].next_indication(0))


class Makers(Clients):
    """A client that makes its objects again."""

    def makes(self, slot: Slot) -> dict[str, Handle]:
        """Its objects, one of them a publisher with a value."""
        made = {"put": slot.publish(100, f"{DEVICE}:{PD}"), "bare": slot.publish(101, f"{DEVICE}:{PD}"),
                "subscription": slot.subscribe(102), "requester": slot.openpull(103, f"{DEVICE}:{PD}"),
                "listener": slot.listen(300)}
        slot.put(made["put"], b"\x0a\x0b")
        return made

    def is_whole(self, slot: Slot, made: dict[str, Handle], is_checked: bool) -> None:
        """All is there, once, and the listener hears. `is_checked` is whether `check` has told the latest restart; if
        not, it does so once."""
        self.assertEqual(self.operator().slots()[0].objects, WHOLE)
        self.assertEqual(sorted(it.number for it in made.values()),
                         list(range(made["put"].number, made["put"].number + 5)))
        device = self.socket(DEVICE, to=(HOME, MD))
        device.send(Telegram("Mn", 300, payload=b"\x0d").write())
        told = slot.next_indication(5 * SECOND)
        self.assertIsInstance(told, Notified)
        assert isinstance(told, Notified)
        self.assertEqual((told.listener, told.payload), (made["listener"], b"\x0d"))
        self.assertEqual([slot.check(), slot.check()], [is_checked, True])

    def runs_until(self, slot: Slot, objects: Kinds) -> bool:
        """Whether the slot has these objects, once the client has run for a while."""
        slot.run(50_000)
        return self.operator().slots()[0].objects == objects


class Anew(Makers):
    """It finds out by itself, and by each call; here at control sockets."""

    def test_run_makes_all_again(self) -> None:
        daemon = self.starts()
        slot = self.slot(restore=True)
        made = self.makes(slot)
        heard: list[Restarted] = []
        slot.on(Restarted, heard.append)
        for number in range(1, 3):
            daemon.end()
            daemon.start()
            wait_until(lambda: self.runs_until(slot, WHOLE), 20)
            self.assertEqual(heard, [Restarted(tuple(made.values()), ())] * number)
            self.is_whole(slot, made, is_checked=False)

    def test_run_waits_for_a_daemon_that_isnt_there(self) -> None:
        daemon = self.starts()
        slot = self.slot(restore=True)
        made = self.makes(slot)
        heard: list[Restarted] = []
        slot.on(Restarted, heard.append)
        daemon.end()
        slot.run(1_500_000)
        self.assertRaises(Nobody, slot.get, made["subscription"])
        slot.run(300_000)
        daemon.start()
        wait_until(lambda: self.runs_until(slot, WHOLE), 20)
        self.assertEqual(heard, [Restarted(tuple(made.values()), ())])
        self.is_whole(slot, made, is_checked=False)

    def test_the_daemon_is_started_anew_at_each_step(self) -> None:
        daemon = self.starts()
        slot = self.slot(restore=True)
        made = self.makes(slot)
        send = slot._exchange.send
        # The call that notices it, a reset, five objects and a value.
        for number in range(1 + 1 + 5 + 1):
            left = itertools.count(number, -1)

            def start_and_send(line: str) -> None:
                if line not in ("mark", "get", "get mark", "#") and next(left) == 0:
                    daemon.end()
                    daemon.start()
                send(line)

            daemon.end()
            daemon.start()
            with mock.patch.object(slot._exchange, "send", start_and_send):
                self.assertFalse(slot.check())
            self.assertEqual(self.operator().slots()[0].objects, WHOLE, number)
            self.assertEqual({type(it) for it in iter(lambda: slot.next_indication(0), None)}, {Restarted})
            self.is_whole(slot, made, is_checked=True)

    def test_without_restore_run_tells_it(self) -> None:
        daemon = self.starts()
        slot = self.slot()
        made = self.makes(slot)
        daemon.end()
        daemon.start()
        self.assertEqual(slot.next_indication(20 * SECOND), Restarted(tuple(made.values()), ()))
        self.assertRaises(Refused, slot.get, made["subscription"])
        self.assertEqual(self.operator().slots()[0].objects, Kinds(0, 0, 0, 0, 0, 0))

    def test_each_call_finds_it(self) -> None:
        daemon = self.starts()
        slot = self.slot(restore=True)
        made = self.makes(slot)
        calls: list[Callable[[], object]] = [
            lambda: slot.put(made["put"], b"\x0c"), lambda: slot.get(made["subscription"]),
            lambda: slot.pull(made["requester"]), lambda: slot.unsubscribe(slot.subscribe(7)), slot.check]
        for call in calls:
            daemon.end()
            daemon.start()
            call()
            self.assertIsInstance(slot.next_indication(5 * SECOND), Restarted)
            self.is_whole(slot, made, is_checked=call == slot.check)

    def test_one_whose_lease_has_run_out(self) -> None:
        self.starts("--lease", str(LEASE))
        slot = self.slot(restore=True, lease_us=LEASE * SECOND)
        made = self.makes(slot)
        # As a program that hangs: it says nothing meanwhile.
        wait_until(lambda: self.operator().slots()[0].objects == Kinds(0, 0, 0, 0, 0, 0), MARGIN * LEASE)
        told = slot.next_indication(5 * SECOND)
        self.assertEqual(told, Restarted(tuple(made.values()), ()))
        self.is_whole(slot, made, is_checked=False)

    def test_the_lease_is_kept(self) -> None:
        self.starts("--lease", str(LEASE))
        # By remarks alone: it doesn't look at its objects.
        with mock.patch.object(_hearing, "LOOK", 100.0):
            self.assertTrue(any(self.is_kept(number) for number in range(1, TRIES + 1)))

    def is_kept(self, number: int) -> bool:
        """Whether a client that runs, and one that waits for an answer, has its object for longer than the lease, of
        that handle: a slot's handles go on."""
        with self.slot(lease_us=LEASE * SECOND) as slot, self.slot(1, lease_us=LEASE * SECOND) as other:
            handles = slot.subscribe(100), other.subscribe(100)
            end = time.monotonic() + 3 * LEASE
            while time.monotonic() < end:
                slot.run(int(LEASE * SECOND / 10))
                list(other.indications(int(LEASE * SECOND / 10)))
            return slot.check() and other.check() and [it.number for it in handles] == [number] * 2


class AnewAtPorts(Anew):
    """The same at UDP ports."""

    is_at_paths = False


class Loses(Relay):
    """A network that loses one answer, by its number, and no indication: an answer to a mark may come after one."""

    lost_one: int | None = None
    answers = 0  # that came to it

    def times(self, data: bytes) -> int:
        """How often a datagram is brought."""
        if data.split()[1:2] == [b"notified"]:
            return 1
        self.answers += 1
        return int(self.answers - 1 != self.lost_one)

    def lose(self, number: int) -> None:
        """Has that answer be lost, of those that come from here on."""
        self.lost_one = self.answers + number


class Restores(Makers):
    """One answer is lost while objects are made again."""

    is_at_paths = False

    # The answers of a call that notices it, of a reset, five objects and a value: each with a mark.
    STEPS = 2 * (1 + 1 + 5 + 1)

    def through(self, **words: Any) -> tuple[Slot, Loses]:
        """A client with a network before it."""
        relay = Loses(FRONT, (HOME, CONTROL), 1, lost=1, doubled=1, both_ways=False)
        self.addCleanup(relay.close)
        slot = Slot(FRONT, relay.number, restore=True, **words)
        self.addCleanup(slot.close)
        return slot, relay

    def test_each_answer_is_lost_in_turn(self) -> None:
        self.starts()
        slot, relay = self.through(answer_us=LONG_US, tries=1)
        made = self.makes(slot)
        seen = set()
        for number in range(self.STEPS + 2):
            with Slot(HOME, CONTROL, answer_us=ANSWER_US) as other:
                other.reset()
            relay.lose(number)
            # What is lost is missed soon, and nothing else is.
            slot.answer_us = 50_000
            seen.add(self.restored(slot, made))
        self.assertEqual(seen, {False, True})

    def restored(self, slot: Slot, made: dict[str, Handle]) -> bool:
        """Whether a check made all again at once; in any case it says True only where all is there."""
        refused = []

        def is_checked() -> bool:
            try:
                return slot.check()
            except NoAnswer as fault:
                refused.append(fault)
                slot.answer_us = LONG_US
                return False

        wait_until(is_checked)
        slot.answer_us = LONG_US
        self.assertEqual(self.operator().slots()[0].objects, WHOLE)
        told = list(iter(lambda: slot.next_indication(0), None))
        self.assertEqual([type(it) for it in told], [Restarted])
        self.is_whole(slot, made, is_checked=True)
        return not refused

    def test_nothing_is_made_before_the_last_reset_is_answered(self) -> None:
        self.starts()
        slot, relay = self.through(answer_us=LONG_US, tries=5)
        # What it asks first is answered, and the mark after that.
        slot._asking.make_sure()
        slot.sync()
        slot.answer_us, asked = 100_000, relay.answers
        os.kill(self.started.process.pid, signal.SIGSTOP)
        wait_until(lambda: is_in(self.started, "T"))
        self.assertRaises(NoAnswer, slot.publish, 100, f"{DEVICE}:{PD}")
        os.kill(self.started.process.pid, signal.SIGCONT)
        # Of each try the answer to the reset, and to the mark after it.
        wait_until(lambda: relay.answers == asked + 2 * slot.tries)
        said: list[str] = []
        send = slot._exchange.send

        def note(line: str) -> None:
            said.append(line)
            send(line)
            if said.count("reset") == 2:
                # From here on nothing is lost.
                slot.answer_us = LONG_US

        relay.lose(1)  # the answer to the mark after the first reset
        with mock.patch.object(slot._exchange, "send", note):
            slot.put(slot.publish(100, f"{DEVICE}:{PD}"), b"\x01")
        self.assertEqual([it.split()[0] for it in said if it not in ("mark", "get", "get mark", "#")],
                         ["reset", "reset", "publish", "put"])
        self.assertEqual(self.operator().slots()[0].objects, Kinds(1, 0, 0, 0, 0, 0))
