"""What a client says after its `close`, and whom that wakes."""
from __future__ import annotations

import asyncio
import functools
import itertools
import os
import signal
import threading
from collections.abc import Callable
from typing import Any

import testing
from test_paths import ANSWER_US, Clients
from test_ports import DEVICE, HOME
from testing import CONTROL, MD, OPERATOR, PD, SECOND
from trdp_slot import AlreadyClosed, AsyncSlot, Operator, Silent, Slot, SlotError
from trdp_telegram import Telegram

# The arguments of each method of a client and of an operator; those that a closed one has are in OPEN.
WORDS: dict[str, tuple[Any, ...]] = {
    "publish": (1, f"{DEVICE}:{PD}"), "put": (1, b""), "unpublish": (1,), "subscribe": (1,), "get": (1,),
    "unsubscribe": (1,), "openpull": (1, f"{DEVICE}:{PD}"), "pull": (1,), "closepull": (1,), "listen": (1,),
    "unlisten": (1,), "notify": (1, f"{DEVICE}:{MD}"), "request": (1, f"{DEVICE}:{MD}"), "reply": (1, 1),
    "query": (1, 1), "replyerror": (1, 1, -1), "confirm": (1, f"{DEVICE}:{MD}"), "abort": (1,), "reset": (),
    "indications": (0,), "next_indication": (0,), "on": (Silent, print), "run": (0,), "begin": (), "sync": (),
    "check": (), "declare": ("nowhere",), "send_line": ("#",), "read_line": (0,), "fileno": ()}
OPERATORS: dict[str, tuple[Any, ...]] = {
    "topology": (1, 1), "role": (1, True), "addslot": (), "totals": (), "slots": ()}
OPEN = {"close", "look"}


def methods(kind: type) -> set[str]:
    """The names of what a user of a class can call."""
    return {name for name in dir(kind) if name[0] != "_" and callable(getattr(kind, name))}


class Closed(Clients):
    """A client that is closed, here at control sockets."""

    def by_port(self, port: int = CONTROL) -> Slot:
        """A client at a port."""
        slot = Slot(self.folder if self.is_at_paths else HOME, port, answer_us=ANSWER_US)
        self.addCleanup(slot.close)
        return slot

    def place(self, port: int = CONTROL) -> str:
        """How such a place is called."""
        return f"{self.folder}/{port}" if self.is_at_paths else f"{HOME}:{port}"

    def says_so(self, call: Callable[[], object], port: int = CONTROL) -> None:
        """A call says that its client is closed."""
        with self.assertRaises(AlreadyClosed) as caught:
            call()
        self.assertEqual(str(caught.exception), f"the client of {self.place(port)} is closed")
        self.assertIsInstance(caught.exception, SlotError)
        self.assertIsInstance(caught.exception, ValueError)

    def test_each_call_says_so(self) -> None:
        self.assertEqual(methods(Slot) - OPEN, set(WORDS))
        self.starts()
        used, unused = self.by_port(), self.by_port()
        used.subscribe(100)
        for slot, name in itertools.product((used, unused), WORDS):
            slot.close()
            with self.subTest(name):
                call = functools.partial(getattr(slot, name), *WORDS[name])
                self.says_so(lambda: list(call()) if name == "indications" else call())

    def test_an_operator_says_so(self) -> None:
        self.assertEqual(methods(Operator) - OPEN, set(OPERATORS))
        self.starts()
        with self.operator() as operator:
            self.assertEqual(len(operator.slots()), 2)
        operator.close()
        for name, words in OPERATORS.items():
            with self.subTest(name):
                self.says_so(lambda: getattr(operator, name)(*words), OPERATOR)

    def test_a_task_says_so(self) -> None:
        self.starts()

        async def act() -> None:
            async with AsyncSlot(self.by_port()) as slot:
                handle = await slot.subscribe(100)
                getting = asyncio.gather(*(slot.get(handle) for _ in range(5)))
                await asyncio.sleep(0)
            # What was begun before is done.
            self.assertEqual([it.state for it in await getting], ["Never"] * 5)
            await slot.close()
            self.assertIsNone(await slot.next_indication())
            for name, words in WORDS.items():
                if name in methods(AsyncSlot) - {"next_indication"}:
                    with self.assertRaises(AlreadyClosed):
                        await getattr(slot, name)(*words)

        asyncio.run(asyncio.wait_for(act(), 20))

    def test_threads_that_wait_are_woken(self) -> None:
        self.starts()
        before = set(os.listdir("/proc/self/fd"))
        slot = self.by_port()
        slot.listen(300)
        heard: list[Exception] = []

        def wait(call: Callable[[], object]) -> None:
            try:
                call()
            except Exception as fault:
                heard.append(fault)

        waits: list[Callable[[], object]] = [slot.run, lambda: list(slot.indications()), slot.next_indication]
        threads = [threading.Thread(target=wait, args=(it,), daemon=True) for it in waits]
        for thread in threads:
            thread.start()
        testing.wait_until(lambda: slot._bell.waiting == len(waits))
        # A process that has a copy of all that is open changes nothing.
        child = testing.fork(signal.pause, range(3, 1000))
        self.addCleanup(os.waitpid, child, 0)
        self.addCleanup(os.kill, child, signal.SIGKILL)
        slot.close()
        for thread in threads:
            thread.join(20)
        self.assertEqual([type(it) for it in heard], [AlreadyClosed] * len(waits))
        self.assertEqual(set(os.listdir("/proc/self/fd")), before)

    def test_a_callback_that_closes_it_raises_what_it_raises(self) -> None:
        self.starts()
        for fault, kind in ((ZeroDivisionError(), ZeroDivisionError), (None, AlreadyClosed)):
            slot = self.by_port()
            slot.subscribe(100, time_us=1000)

            def end(_: Silent) -> None:
                slot.close()
                if fault:
                    raise fault

            slot.on(Silent, end)
            self.assertRaises(kind, slot.run, 20 * SECOND)

    def test_a_child_closes_it_though_a_thread_of_its_parent_has_it(self) -> None:
        self.starts()
        slot = self.by_port()
        listener = slot.listen(300)
        ended: list[int] = []

        def fork() -> None:
            ended.append(os.waitpid(testing.fork(slot.close, range(3, 1000)), 0)[1])

        with slot._lock:
            thread = threading.Thread(target=fork, daemon=True)
            thread.start()
            thread.join(20)
        self.assertEqual(ended, [0])
        self.socket(DEVICE, to=(HOME, MD)).send(Telegram("Mn", 300).write())
        told: Any = slot.next_indication(20 * SECOND)
        self.assertIs(told.listener, listener)


class ClosedAtPorts(Closed):
    """The same at UDP ports."""

    is_at_paths = False
