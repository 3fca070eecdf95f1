"""Threads, tasks and callbacks beside a client's calls, and a program that reads too slowly."""
from __future__ import annotations

import asyncio
import contextlib
import os
import random
import select
import signal
import threading
import time
from collections.abc import Callable, Coroutine
from typing import Any

from test_edge import is_in
from test_paths import Clients
from test_ports import DEVICE, HOME, control, node
from testing import MD, PD, SECOND, SEED, wait_until
from trdp_slot import AsyncSlot, Lost, Notified, Refused, Restarted, Slot
from trdp_telegram import Telegram

# Each thread's calls, at each kind of port; how many threads.
CALLS, THREADS = 6_250, 8
# How many notifications come to a program, for how many seconds it is busy, how many come before it is seen that they
# were taken, and how long they are.
NOTIFICATIONS, BUSY, CREDIT, PAYLOAD = 2_000, 1.0, 50, 1_000
# In seconds: how long an event loop is kept busy at a time.
HELD = 0.005


class Beside(Clients):
    """What goes on beside a call; here at control sockets."""

    def datasets(self) -> str:
        """A dataset of 40 to 47 bytes, whose number is their count."""
        return "".join(f'[[dataset]]\nid = {it}\nelement = [{{ type = "UINT8", size = {it} }}]\n'
                       for it in range(40, 48))

    def starts_with_values(self) -> list[Slot]:
        """A daemon with these datasets, and the client of its slot and of a fence."""
        slots = control(0, "subscriptions = 8\npublishers = 1\nlisteners = 1"), control(1, "listeners = 1")
        self.started = self.daemon(node(*slots) + self.datasets(), *self.words())
        return [self.slot(), self.slot(1)]

    def test_eight_threads_get_their_own_values(self) -> None:
        slot, _ = self.starts_with_values()
        wrong: list[object] = []
        handles = [slot.subscribe(100 + it, dataset=it) for it in range(40, 48)]

        def call(number: int) -> None:
            handle = handles[number]
            for _ in range(CALLS):
                try:
                    value = slot.get(handle, tries=50).value
                except Exception as fault:
                    wrong.append(fault)
                    return
                if value != [[0] * (40 + number)]:
                    wrong.append((number, value))

        threads = [threading.Thread(target=call, args=(it,), daemon=True) for it in range(THREADS)]
        for thread in threads:
            thread.start()
        for thread in threads:
            thread.join()
        self.assertEqual(wrong[:3], [])
        self.assertIsNone(slot.next_indication(0))

    def test_calls_are_made_while_another_thread_runs(self) -> None:
        slot, _ = self.starts_with_values()
        slot.listen(300)
        heard: list[Notified] = []
        slot.on(Notified, heard.append)

        class Enough(Exception):
            """All has come."""

        def end(_: object) -> None:
            if len(heard) == 200:
                raise Enough

        def run() -> None:
            with contextlib.suppress(Enough):
                slot.run(60 * SECOND)

        slot.on(Notified, end)
        thread = threading.Thread(target=run, daemon=True)
        thread.start()
        device = self.socket(DEVICE, to=(HOME, MD))
        handle = slot.subscribe(140, dataset=40)
        for number in range(200):
            device.send(Telegram("Mn", 300, payload=bytes([number])).write())
            self.assertEqual(slot.get(handle).value, [[0] * 40])
        thread.join(60)
        self.assertEqual([it.payload[0] for it in heard], list(range(200)))

    def test_what_a_callback_raises_ends_run_and_loses_nothing(self) -> None:
        slot, _ = self.starts_with_values()
        slot.listen(300)
        heard: list[bytes] = []
        faults = iter([ZeroDivisionError(), KeyboardInterrupt(), None])

        def hear(told: Notified) -> None:
            heard.append(told.payload)
            if told.payload == b"\x01" and (fault := next(faults)):
                raise fault

        slot.on(Notified, hear)
        device = self.socket(DEVICE, to=(HOME, MD))
        for payload in (b"\x00", b"\x01", b"\x02"):
            device.send(Telegram("Mn", 300, payload=payload).write())
        self.assertRaises(ZeroDivisionError, slot.run, 5 * SECOND)
        self.assertRaises(KeyboardInterrupt, slot.run, 5 * SECOND)
        wait_until(lambda: self.has_run(slot) and len(heard) >= 5)
        self.assertEqual(heard, [b"\x00", b"\x01", b"\x01", b"\x01", b"\x02"])

    @staticmethod
    def has_run(slot: Slot) -> bool:
        """Says so, when it has."""
        slot.run(10_000)
        return True

    def test_fileno_can_be_waited_at(self) -> None:
        slot, _ = self.starts_with_values()
        slot.listen(300)
        slot.sync()
        number, device = slot.fileno(), self.socket(DEVICE, to=(HOME, MD))
        for payload in (b"\x00", b"\x01", b"\x02"):
            self.assertEqual(select.select([number], [], [], 0)[0], [])
            device.send(Telegram("Mn", 300, payload=payload).write())
            self.assertEqual(select.select([number], [], [], 5)[0], [number])
            if payload == b"\x01":
                # What came during a call is there too, though nothing can be read from its socket.
                while not slot._objects.told:
                    slot.sync()
            self.assertEqual(select.select([number], [], [], 0)[0], [number])
            told = slot.next_indication(0)
            assert isinstance(told, Notified)
            self.assertEqual(told.payload, payload)
        self.assertEqual(slot.fileno(), number)

    def test_what_a_busy_program_loses_is_told(self) -> None:
        slot, fence = self.starts_with_values()
        slot.listen(300)
        fence.listen(301)
        device = self.socket(DEVICE, to=(HOME, MD))
        begin = time.monotonic()
        for number in range(NOTIFICATIONS):
            device.send(Telegram("Mn", 300, payload=number.to_bytes(PAYLOAD, "big")).write())
            if number % CREDIT == CREDIT - 1:
                # What comes after them is heard, so that they were taken.
                device.send(Telegram("Mn", 301).write())
                self.assertIsInstance(fence.next_indication(20 * SECOND), Notified)
        time.sleep(max(0.0, begin + BUSY - time.monotonic()))
        came, lost, end = 0, 0, time.monotonic() + 60
        while came + lost < NOTIFICATIONS:
            self.assertLess(time.monotonic(), end, (came, lost))
            told = slot.next_indication(50_000)
            if told is None:
                # It comes with the next datagram.
                slot.sync()
                continue
            if isinstance(told, Lost):
                lost += told.texts
                continue
            assert isinstance(told, Notified)
            self.assertEqual(int.from_bytes(told.payload, "big"), came + lost)
            came += 1
        self.assertEqual(came + lost, NOTIFICATIONS)
        self.assertGreater(min(came, lost), 0)
        self.assertIsNone(slot.next_indication(50_000))

    # -- asyncio ---------------------------------------------------------------

    def asynchronous(self, act: Callable[[AsyncSlot], Coroutine[Any, Any, None]], **words: Any) -> None:
        """Does something with the client of a slot, in a loop that another task keeps busy."""
        self.starts_with_values()

        async def keep_busy() -> None:
            while True:
                time.sleep(HELD)
                await asyncio.sleep(HELD)

        async def run() -> None:
            async with AsyncSlot(self.slot(**words)) as slot:
                busy = asyncio.create_task(keep_busy())
                try:
                    await asyncio.wait_for(act(slot), 120)
                finally:
                    busy.cancel()

        asyncio.run(run())

    def test_tasks_beside_a_busy_loop(self) -> None:
        device = self.socket(DEVICE, to=(HOME, MD))

        async def hear(slot: AsyncSlot, count: int) -> list[int]:
            heard = []
            async for told in slot:
                assert isinstance(told, Notified)
                heard.append(int.from_bytes(told.payload, "big"))
                if len(heard) == count:
                    break
            return heard

        async def get(slot: AsyncSlot, number: int) -> None:
            handle = await slot.subscribe(100 + number, dataset=number)
            for _ in range(50):
                self.assertEqual((await slot.get(handle)).value, [[0] * number])
            with self.assertRaises(Refused):
                await slot.get(999)

        async def act(slot: AsyncSlot) -> None:
            await slot.listen(300)
            hearing = asyncio.create_task(hear(slot, 200))
            getting = [asyncio.create_task(get(slot, it)) for it in range(40, 44)]
            for number in range(200):
                device.send(Telegram("Mn", 300, payload=number.to_bytes(4, "big")).write())
                await asyncio.sleep(0.001)
            await asyncio.gather(*getting)
            self.assertEqual(await hearing, list(range(200)))
            self.assertIsNone(await slot.next_indication(1_000))

        self.asynchronous(act)

    def test_a_cancelled_task_leaves_the_slot_usable(self) -> None:
        chance = random.Random(SEED)
        device = self.socket(DEVICE, to=(HOME, MD))

        async def act(slot: AsyncSlot) -> None:
            handles = {it: await slot.subscribe(100 + it, dataset=it) for it in range(40, 44)}
            await slot.listen(300)
            heard = 0
            for sent in range(1, 101):
                device.send(Telegram("Mn", 300, payload=b"\x00").write())
                tasks: list[asyncio.Task[Any]] = [asyncio.create_task(slot.get(it)) for it in handles.values()]
                tasks.append(asyncio.create_task(slot.next_indication()))
                await asyncio.sleep(chance.choice([0, 0, 0.001, 0.01]))
                for task in tasks:
                    task.cancel()
                told = (await asyncio.gather(*tasks, return_exceptions=True))[-1]
                heard += isinstance(told, Notified)
                number = chance.choice(list(handles))
                self.assertEqual((await slot.get(handles[number])).value, [[0] * number], SEED)
            while heard < sent and isinstance(await slot.next_indication(5 * SECOND), Notified):
                heard += 1
            self.assertEqual(heard, sent, SEED)

        self.asynchronous(act)

    def test_a_task_that_hears_ends_with_the_client(self) -> None:
        async def hear(slot: AsyncSlot) -> list[object]:
            return [told async for told in slot]

        async def act(slot: AsyncSlot) -> None:
            for is_begun in (True, False):
                hearing = asyncio.create_task(hear(slot))
                if is_begun:
                    await asyncio.sleep(0.05)
                await slot.close()
                self.assertEqual(await hearing, [])

        self.asynchronous(act)

    def test_a_call_that_waits_holds_nobody_up(self) -> None:
        async def act(slot: AsyncSlot) -> None:
            handle = await slot.subscribe(140, dataset=40)
            for is_cancelled in (False, True):
                os.kill(self.started.process.pid, signal.SIGSTOP)
                wait_until(lambda: is_in(self.started, "T"))
                getting = asyncio.create_task(slot.get(handle))
                await asyncio.sleep(0.05)
                if is_cancelled:
                    getting.cancel()
                hearing = asyncio.create_task(slot.next_indication(10 * SECOND))
                for _ in range(10):
                    await asyncio.sleep(0.001)
                # All that went on while the call is still under way.
                self.assertTrue(slot._turn.locked())
                hearing.cancel()
                os.kill(self.started.process.pid, signal.SIGCONT)
                await asyncio.gather(getting, hearing, return_exceptions=True)
                self.assertEqual((await slot.get(handle)).value, [[0] * 40])

        self.asynchronous(act, answer_us=5 * SECOND)

    def test_tasks_notice_a_restart(self) -> None:
        async def act(slot: AsyncSlot) -> None:
            handle = await slot.publish(100, f"{DEVICE}:{PD}")
            for _ in range(2):
                self.started.end()
                self.started.start()
                self.assertIsInstance(await anext(slot), Restarted)
                await slot.put(handle, b"\x01")
                self.assertEqual([await slot.check(), await slot.check()], [False, True])

        self.asynchronous(act, restore=True)


class BesideAtPorts(Beside):
    """The same at UDP ports."""

    is_at_paths = False
