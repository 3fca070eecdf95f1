"""What `check` says of a restart, whoever has noticed it, at either kind of control port."""
from __future__ import annotations

import contextlib
import itertools
from collections.abc import Callable
from unittest import mock

from made_node import SOON
from test_paths import ANSWER_US, QUOTAS, Clients
from test_ports import control, node
from testing import SECOND, Daemon
from trdp_slot import Handle, Kinds, NoAnswer, Refused, Restarted, Slot, _hearing

LISTENS, NOTHING = Kinds(0, 1, 0, 1, 0, 0), Kinds(0, 0, 0, 0, 0, 0)
# In seconds: how soon a client looks here, and for how long one runs, so that it has looked.
LOOK, RUN = 0.02, 0.2


def run(slot: Slot, _: Handle) -> None:
    """Runs until it has noticed a restart."""
    slot.run(int(RUN * SECOND))


def wait(slot: Slot, _: Handle) -> None:
    """Waits for the next indication."""
    slot.next_indication(int(RUN * SECOND))


def get(slot: Slot, subscription: Handle) -> None:
    """Makes a call."""
    with contextlib.suppress(Refused):
        slot.get(subscription)


def nothing(*_: object) -> None:
    """Leaves it to `check`."""


Notice = Callable[[Slot, Handle], None]
NOTICES: list[Notice] = [run, wait, get, nothing]
# Who notices a restart, whether the objects are made again, and whether the program asks for `Restarted`.
PROGRAMS = list(itertools.product(NOTICES, (False, True), (False, True)))


class Checks(Clients):
    """Programs that only listen, here at control sockets."""

    def setUp(self) -> None:
        super().setUp()
        self.enterContext(mock.patch.object(_hearing, "LOOK", LOOK))

    def starts_with_slots(self, count: int) -> Daemon:
        """A daemon with that many slots."""
        self.started = self.daemon(node(*(control(it, QUOTAS) for it in range(count))), *self.words())
        return self.started

    def listens(self, number: int, restore: bool, heard: list[Restarted] | None = None) -> tuple[Slot, Handle]:
        """A program that only listens, with its subscription. If it asks for `Restarted`, these go to `heard`."""
        slot = self.slot(number, restore=restore)
        subscription = slot.subscribe(100)
        slot.listen(300)
        if heard is not None:
            slot.on(Restarted, heard.append)
        self.assertEqual([slot.check(), slot.check()], [True, True])
        return slot, subscription

    def restarts(self, made: list[tuple[Slot, Handle]]) -> None:
        """Starts the daemon again, and has each program notice that in its way."""
        self.started.end()
        self.started.start()
        for (notice, _, _), (slot, subscription) in zip(PROGRAMS, made):
            notice(slot, subscription)

    def test_restarts_are_told_once_whoever_notices_them(self) -> None:
        self.starts_with_slots(len(PROGRAMS))
        heard: list[list[Restarted]] = [[] for _ in PROGRAMS]
        made = [self.listens(number, restore, heard[number] if asks else None)
                for number, (_, restore, asks) in enumerate(PROGRAMS)]
        self.restarts(made)
        self.restarts(made)
        answers = [[slot.check() for _ in range(3)] for slot, _ in made]
        objects = [it.objects for it in self.operator().slots()]
        for program, answer, has, told in zip(PROGRAMS, answers, objects, heard):
            with self.subTest(program):
                notice, restore, asks = program
                self.assertEqual(answer, [False, True, True])
                self.assertEqual(has, LISTENS if restore else NOTHING)
                self.assertEqual(bool(told), asks and notice is run)

    def test_a_check_without_an_answer_tells_nothing(self) -> None:
        daemon = self.starts_with_slots(2)
        made = [self.listens(number, restore)[0] for number, restore in enumerate((False, True))]
        daemon.end()
        for slot in made:
            slot.answer_us = SOON
        said = [[self.checked(slot) for _ in range(2)] for slot in made]
        daemon.start()
        for slot, before in zip(made, said):
            slot.answer_us = ANSWER_US
            with self.subTest(restore=slot.restore):
                answers = [*before, *(self.checked(slot) for _ in range(3))]
                self.assertIn(None, answers[:2])
                self.assertEqual([it for it in answers if it is not None][:3], [False, True, True])

    @staticmethod
    def checked(slot: Slot) -> bool | None:
        """What a check says; None if it has no answer."""
        try:
            return slot.check()
        except NoAnswer:
            return None


class ChecksAtPorts(Checks):
    """The same at UDP ports."""

    is_at_paths = False
