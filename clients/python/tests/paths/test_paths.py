"""The client at either kind of control port: what it says and hears, who is busy, and how a connection ends."""
from __future__ import annotations

import os
import pathlib
import signal
import socket
import subprocess
import sys
import tempfile
import time
import unittest
from collections.abc import Callable
from typing import Any

import testing
from test_controls import PAYLOAD
from test_ports import DEVICE, HOME, Case, control, node
from testing import CONTROL, MD, OPERATOR, PD, SECOND, Daemon, wait_until
from trdp_slot import (Asked, Busy, Closed, Handle, Kinds, NoAnswer, Nobody, Notified, Operator, OtherSlot, Refused,
                       Replied, Restarted, Silent, Slot, Value)

QUOTAS = "publishers = 4\nsubscriptions = 4\nrequesters = 1\nlisteners = 2\ncallers = 2\nrepliers = 2"
ANSWER_US = SECOND
NOBODY = 65534
# How many times as long as it should take something may take.
MARGIN = 10


class Clients(Case):
    """A daemon of two slots whose control ports are of one kind, and clients of it."""

    is_at_paths = True

    def setUp(self) -> None:
        folder = tempfile.TemporaryDirectory()
        self.addCleanup(folder.cleanup)
        self.folder = folder.name

    def starts(self, *words: str) -> Daemon:
        """A daemon of the kind."""
        self.started = self.daemon(node(control(0, QUOTAS), control(1, QUOTAS)), *self.words(), *words)
        return self.started

    def words(self) -> tuple[str, ...]:
        """The words by which it has its control ports."""
        return ("--controls", self.folder) if self.is_at_paths else ()

    def slot(self, number: int = 0, **words: Any) -> Slot:
        """A client of a slot."""
        words = {"answer_us": ANSWER_US, "controls": self.folder if self.is_at_paths else None, **words}
        slot = Slot(str(self.started.path), number, **words)
        self.addCleanup(slot.close)
        return slot

    def operator(self) -> Operator:
        """The node's operator."""
        if self.is_at_paths:
            return Operator(f"{self.folder}/{OPERATOR}", answer_us=ANSWER_US)
        return Operator(HOME, OPERATOR, answer_us=ANSWER_US)

    def told(self, slot: Slot, kind: type) -> Any:
        """The next indication, of that kind."""
        told = slot.next_indication(5 * SECOND)
        self.assertIsInstance(told, kind)
        return told


class Both(Clients):
    """What is the same at both kinds, here at control sockets."""

    def valid(self, slot: Slot, subscription: Handle) -> Value:
        """What a subscription shows as soon as it is valid."""
        shown: list[Value] = []

        def is_valid() -> bool:
            shown.append(slot.get(subscription))
            return shown[-1].state == "Valid"

        wait_until(is_valid)
        return shown[-1]

    def test_process_data(self) -> None:
        self.starts()
        door, desk = self.slot(), self.slot(1)
        publisher = door.publish(100, f"{HOME}:{PD}", cycle_us=10_000)
        door.put(publisher, b"\x0a\x0b")
        subscription = desk.subscribe(100, time_us=200_000)
        self.assertEqual(self.valid(desk, subscription).value, b"\x0a\x0b")
        door.unpublish(publisher)
        self.assertEqual(self.told(desk, Silent), Silent(subscription))
        self.assertRaises(Refused, door.put, publisher, b"")
        self.assertTrue(door.check() and desk.check())

    def test_messages(self) -> None:
        self.starts()
        door, desk = self.slot(), self.slot(1)
        listener = door.listen(300)
        caller = desk.request(300, f"{HOME}:{MD}", b"\x0d", time_us=5 * SECOND)
        asked = self.told(door, Asked)
        self.assertIs(asked.listener, listener)
        door.reply(asked.replier, 301, b"\x0c")
        self.assertEqual(self.told(desk, Replied).payload, b"\x0c")
        self.assertEqual(self.told(desk, Closed), Closed(caller, "Done"))

    def test_the_slot_begins_anew_before_the_first_call(self) -> None:
        self.starts()
        for number in range(1, 4):
            # Each has all publishers that the slot may have, though the one before ended none.
            slot = self.slot()
            self.assertEqual([slot.publish(100, f"{DEVICE}:{PD}").number for _ in range(4)],
                             list(range(4 * number - 3, 4 * number + 1)))
            self.assertRaises(Refused, slot.publish, 100, f"{DEVICE}:{PD}")
            slot.close()

    def test_what_the_operator_asks_and_says(self) -> None:
        self.starts()
        slot, operator = self.slot(), self.operator()
        slot.subscribe(100)
        for _ in range(20):
            operator.role(3, True)
        self.assertRaises(Refused, operator.role, 0, True)
        first, second = operator.slots()
        self.assertEqual((first.objects, second.objects), (Kinds(0, 1, 0, 0, 0, 0), Kinds(0, 0, 0, 0, 0, 0)))
        self.assertIsNone(second.silent_us)
        self.assertGreater(operator.totals().taken, 20)

    def test_another_slot_is_told(self) -> None:
        self.starts()
        with self.assertRaises(OtherSlot) as caught:
            if self.is_at_paths:
                with Slot(self.folder, CONTROL + 1, answer_us=ANSWER_US, number=0) as slot:
                    slot.listen(1)
            else:
                with Slot(HOME, CONTROL + 1, answer_us=ANSWER_US, number=0) as slot:
                    slot.listen(1)
        self.assertEqual(caught.exception.line, "1 refused NoHandle")


class BothAtPorts(Both):
    """The same at UDP ports."""

    is_at_paths = False

    def test_nobody_is_told_at_once_at_a_port(self) -> None:
        daemon = self.starts()
        slot = self.slot(answer_us=5 * SECOND, tries=1)
        subscription = slot.subscribe(100)
        daemon.end()
        calls: list[Callable[[], object]] = [lambda: slot.get(subscription), slot.check, slot.sync, slot.reset,
                                             lambda: self.slot(answer_us=5 * SECOND, tries=1).listen(1)]
        # Linux reports it a thousand times a second at most, to all programs together.
        self.assertTrue(any(self.are_told_at_once(calls) for _ in range(3)))
        daemon.start()
        self.assertRaises(Refused, slot.get, subscription)

    def are_told_at_once(self, calls: list[Callable[[], object]]) -> bool:
        """Whether each call reports that no one is there, and all together sooner than one waits for its answer."""
        begin = time.monotonic()
        try:
            for call in calls:
                with self.assertRaisesRegex(Nobody, f"^nobody is at {HOME}:{CONTROL}"):
                    call()
        except NoAnswer:
            return False
        return time.monotonic() - begin < 5


class Connections(Clients):
    """What a connection has, and a datagram hasn't."""

    def test_the_longest_message(self) -> None:
        self.starts()
        door, desk = self.slot(), self.slot(1)
        door.listen(300)
        payload = bytes(it % 251 for it in range(PAYLOAD))
        desk.notify(300, f"{HOME}:{MD}", payload)
        self.assertTrue(self.told(door, Notified).payload == payload)
        desk.request(300, f"{HOME}:{MD}", payload)
        asked = self.told(door, Asked)
        self.assertTrue(asked.payload == payload)
        door.reply(asked.replier, 301, payload)
        self.assertTrue(self.told(desk, Replied).payload == payload)
        with self.assertRaisesRegex(ValueError, "a control socket takes 139999"):
            desk.notify(1, f"{HOME}:{MD}", bytes(70_000))

    def test_beside_an_application_that_lives_it_is_busy(self) -> None:
        self.starts()
        first = self.slot()
        publisher = first.publish(100, f"{DEVICE}:{PD}")
        for _ in range(3):
            second = self.slot()
            calls: list[Callable[[], object]] = [second.sync, second.begin, lambda: second.listen(1), second.reset]
            for call in calls:
                with self.assertRaises(Busy) as caught:
                    call()
                    second.sync()
                self.assertEqual(str(caught.exception), f"{self.folder}/{CONTROL} is busy: another one lives there")
        first.put(publisher, b"\x01")
        first.close()
        self.assertEqual(second.publish(100, f"{DEVICE}:{PD}").number, 2)
        self.assertIsNone(second.next_indication(0))

    def test_four_operators_are_enough(self) -> None:
        self.starts()
        held = [testing.Connection(f"{self.folder}/{OPERATOR}") for _ in range(4)]
        for connection in held:
            self.addCleanup(connection.close)
            connection.say(b"role 1 leader")
            self.assertEqual(connection.hear(), b"ok\n")
        self.assertRaises(Busy, self.operator().role, 1, True)

    def test_the_end_of_the_connection_is_told(self) -> None:
        daemon = self.starts()
        slot = self.slot()
        publisher, listener = slot.publish(100, f"{DEVICE}:{PD}"), slot.listen(300)
        caller = slot.request(300, f"{DEVICE}:{MD}", time_us=100 * SECOND)
        daemon.end()
        self.assertEqual(self.told(slot, Restarted), Restarted((publisher, listener), (caller,)))
        self.assertIsNone(slot.next_indication(10_000))
        with self.assertRaisesRegex(Refused, "^NoHandle"):
            slot.put(publisher, b"\x01")
        daemon.start()
        self.assertEqual(slot.publish(100, f"{DEVICE}:{PD}").number, 1)

    def test_nobody_is_told_at_once(self) -> None:
        daemon = self.starts()
        daemon.end()
        path = f"{self.folder}/{CONTROL}"
        for reason in ("Connection refused", "No such file or directory"):
            slot, begin = self.slot(answer_us=20 * SECOND), time.monotonic()
            with self.assertRaises(Nobody) as caught:
                slot.listen(1)
            self.assertEqual(str(caught.exception), f"nobody is at {path}: {reason}")
            self.assertIsInstance(caught.exception, ConnectionRefusedError)
            with self.assertRaisesRegex(Nobody, reason):
                self.operator().totals()
            self.assertLess(time.monotonic() - begin, 20)
            for number in (CONTROL, OPERATOR):
                pathlib.Path(self.folder, str(number)).unlink(missing_ok=True)

    def test_a_path_that_cant_be_one(self) -> None:
        self.starts()
        for controls in ("x" * 120, "a\0b"):
            self.assertRaises(ValueError, self.slot, controls=controls)
        self.assertRaises(ValueError, Slot, HOME, CONTROL, controls=self.folder)
        self.assertRaises(TypeError, self.slot, controls=5)
        self.assertRaises(ValueError, Operator, "/" + "x" * 120)
        self.assertRaises(ValueError, self.slot, lease_us=0)

    @unittest.skipUnless(os.geteuid() == 0, "root alone becomes another user")
    def test_a_file_that_isnt_there_yet_or_isnt_allowed_yet(self) -> None:
        daemon = self.starts()
        os.chmod(self.folder, 0o755)
        path = pathlib.Path(self.folder, str(CONTROL))
        path.chmod(0o666)
        here, there = socket.socketpair()
        with here, there:
            child = testing.fork(lambda: self.is_another_user(there), [there.fileno()])
            here.settimeout(20)
            self.assertEqual(here.recv(1), b"1")
            daemon.end()
            path.unlink()
            here.send(b"2")
            time.sleep(0.2)
            daemon.start()
            time.sleep(0.2)
            path.chmod(0o666)
            self.assertEqual(here.recv(1), b"3")
            # Where nothing is to be made again, it is raised at once.
            path.chmod(0o600)
            here.send(b"4")
            self.assertEqual(os.waitpid(child, 0)[1], 0)

    def is_another_user(self, there: socket.socket) -> None:
        """An application of another user, which takes steps with the test."""
        os.setgroups([])
        os.setgid(NOBODY)
        os.setuid(NOBODY)
        there.settimeout(20)
        with Slot(self.folder, CONTROL, restore=True, answer_us=5 * SECOND) as slot:
            publisher = slot.publish(100, f"{DEVICE}:{PD}")
            there.send(b"1")
            self.assertEqual(there.recv(1), b"2")
            slot.put(publisher, b"\x01")
            self.told(slot, Restarted)
            there.send(b"3")
        self.assertEqual(there.recv(1), b"4")
        with Slot(self.folder, CONTROL, answer_us=20 * SECOND) as slot:
            self.assertRaisesRegex(PermissionError, f"{self.folder}/{CONTROL}", slot.listen, 1)

    def test_a_child_that_becomes_another_program_doesnt_have_it(self) -> None:
        self.starts()
        slot = self.slot()
        slot.listen(1)
        child = subprocess.Popen([sys.executable, "-c", "input('it runs')"], stdin=subprocess.PIPE,
                                 stdout=subprocess.PIPE, close_fds=False)
        assert child.stdout is not None
        self.assertEqual(child.stdout.read(7), b"it runs")
        slot.close()
        self.slot().sync()
        child.communicate(b"\n", timeout=20)
        self.assertEqual(child.returncode, 0)

    def test_a_child_of_fork_that_closes_it_ends_nothing(self) -> None:
        self.starts()
        slot = self.slot(restore=True)
        publisher = slot.publish(100, f"{DEVICE}:{PD}")
        child = os.fork()
        if child == 0:
            slot.close()
            os._exit(0)
        self.assertEqual(os.waitpid(child, 0)[1], 0)
        slot.put(publisher, b"\x01")
        self.assertIsNone(slot.next_indication(50_000))
        child = os.fork()
        if child == 0:
            signal.pause()
        slot.close()
        self.assertRaises(Busy, self.slot().sync)
        os.kill(child, signal.SIGKILL)
        os.waitpid(child, 0)
        self.slot().sync()
