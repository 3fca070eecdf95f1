"""How answers are matched to calls, and what indications say: at a port that is made up, without a daemon."""
from __future__ import annotations

import random
import socket
import time
from collections.abc import Callable
from typing import Any

import testing
from made_node import ADDRESS, FIRST, PATIENCE, SOON, Case
from testing import Said
from trdp_slot import Alive, Asked, Closed, Confirmed, Notified, Overrun, Refused, Replied, Silent, Slot


class Answers(Case):
    """An answer is never taken for that of another call."""

    def test_a_lost_answer_of_put_is_called_for_again(self) -> None:
        slot = self.client()
        slot.publish(100, "10.0.0.2:17224")
        lost = iter([True, True])
        self.say = self.losing(lambda line: line.startswith("put") and next(lost, False))
        slot.put(1, b"\x01")
        self.assertEqual(self.calls()[1:], ["put 1 01"] * 3)

    def test_a_lost_answer_of_publish_is_told_and_sent_once(self) -> None:
        slot = self.client()
        self.say = self.losing(lambda line: line.startswith("publish"))
        with self.assertRaises(TimeoutError):
            slot.publish(100, "10.0.0.2:17224")
        self.assertEqual(len(self.calls()), 1)
        with self.assertRaises(TimeoutError):
            slot.publish(100, "10.0.0.2:17224", tries=2)
        self.assertEqual(len(self.calls()), 3)

    def test_silence_ends_after_its_time(self) -> None:
        slot = self.asked(tries=3)
        slot.answer_us = 40_000
        self.say = lambda line: []
        start = time.monotonic()
        with self.assertRaises(TimeoutError):
            slot.get(1)
        self.assertTrue(0.11 < time.monotonic() - start < 10, time.monotonic() - start)
        # After each a remark goes from a new socket.
        self.has_remarks(3)
        self.assertEqual(self.calls(), ["get 1"] * 3)
        with self.assertRaises(TimeoutError):
            slot.get(1)
        slot.answer_us = PATIENCE
        self.say = self.node.answer
        with self.assertRaises(Refused):
            slot.get(1)

    def test_nobody_at_the_port(self) -> None:
        with socket.socket(socket.AF_INET, socket.SOCK_DGRAM) as free:
            free.bind((ADDRESS, 0))
            number = free.getsockname()[1]
        with Slot.look(ADDRESS, number, tries=2, answer_us=20_000) as slot:
            for call in (lambda: slot.get(1), slot.sync, slot.check):
                with self.assertRaises(TimeoutError):
                    call()
            self.assertIsNone(slot.next_indication(1000))

    def test_doubled_answers(self) -> None:
        slot = self.client()
        self.say = lambda line: [it for it in self.node.answer(line) for _ in range(2)]
        first = slot.subscribe(100)
        second = slot.subscribe(101)
        self.assertEqual((first.number, second.number), (1, 2))
        for _ in range(5):
            self.assertEqual(slot.get(first).value, b"\x01")
            self.assertEqual(slot.get(second).value, b"\x02")
        self.assertRaises(Refused, slot.get, 3)
        slot.unsubscribe(first)
        self.assertRaises(Refused, slot.get, 1)
        slot.put(second, b"")

    def test_late_answers(self) -> None:
        slot = self.client()
        first, second = slot.subscribe(100), slot.subscribe(101)
        held: list[Said] = []
        count = 0

        def hold(line: str) -> list[Said]:
            held.extend((self.port.client, it) for it in self.node.answer(line))
            return []

        def release(line: str) -> list[Said]:
            self.say = self.node.answer
            late = [*held, *self.node.answer(line)]
            held.clear()
            return late

        def is_late(call: Callable[[], object]) -> None:
            nonlocal count
            count += 1
            # The answer to the mark of the call before isn't held.
            slot.sync()
            self.say, slot.answer_us = hold, SOON
            self.assertRaises(TimeoutError, call)
            self.has_remarks(count)
            self.say, slot.answer_us = release, PATIENCE

        is_late(lambda: slot.get(first, tries=1))
        self.assertEqual(slot.get(second).value, b"\x02")
        self.assertEqual(slot.get(first).value, b"\x01")
        is_late(lambda: slot.publish(102, "10.0.0.2:17224"))
        self.assertEqual(slot.publish(103, "10.0.0.2:17224").number, 4)

    def test_lost_doubled_and_late_by_chance(self) -> None:
        for seed in range(20):
            chance = random.Random(seed)
            held: list[Said] = []

            def say(line: str) -> list[Said]:
                times = chance.choice([0, 1, 1, 1, 2])
                told = [*held, *((self.port.client, it) for it in self.node.answer(line) for _ in range(times))]
                held.clear()
                if chance.randrange(4) == 0:
                    held.extend(told)
                    return []
                return told

            self.node.start_anew()
            self.say = self.node.answer
            slot = self.client(tries=5_000)
            handles = [slot.subscribe(100 + it) for it in range(3)]
            slot.sync()
            slot.answer_us = 3_000
            self.say = say
            for _ in range(20):
                number = chance.randrange(4)
                if number == 3:
                    self.assertRaises(Refused, slot.get, 9)
                else:
                    self.assertEqual(slot.get(handles[number]).counter, number + 1)

    def test_an_ended_object_that_a_second_try_doesnt_find(self) -> None:
        slot = self.client()
        handle = slot.publish(100, "10.0.0.2:17224")
        lost = iter([True])

        def say(line: str) -> list[str]:
            told = self.node.answer(line)
            return [] if line.startswith("unpublish") and next(lost, False) else told

        self.say = say
        slot.unpublish(handle)
        self.assertEqual(self.calls()[1:], ["unpublish 1"] * 2)
        with self.assertRaises(Refused) as caught:
            slot.unpublish(handle)
        self.assertEqual((caught.exception.name, caught.exception.tries), ("NoHandle", 1))

    def test_indications_come_after_a_silence(self) -> None:
        slot = self.client(tries=2)
        handle = slot.subscribe(100)
        slot.sync()
        before = self.port.client
        self.say, slot.answer_us = lambda line: [], SOON
        for _ in range(2):
            self.assertRaises(TimeoutError, slot.get, handle)
        # To where the latest line came from, though that was no call.
        self.has_remarks(4)
        self.port.say("0 silent 1")
        self.assertEqual(slot.next_indication(PATIENCE), Silent(handle))
        slot.answer_us = PATIENCE
        # And to where it was before, as of a daemon that has yet to read what was sent meanwhile.
        self.assertNotEqual(self.port.client, before)
        answer = iter([[(before, "0 alive 1"), (before, "0 done"), (before, "0 silent 1")] * 10])
        self.say = lambda line: [*next(answer, []), *self.node.answer(line)]
        self.assertEqual(slot.get(handle).value, b"\x01")
        self.assertEqual([type(it) for it in slot.indications(20_000)], [Alive, Silent] * 10)

    def test_indications_between_are_kept(self) -> None:
        slot = self.asked()
        self.say = lambda line: ["0 silent 1", *self.node.answer(line), "0 alive 1"]
        handle = slot.subscribe(100)
        self.assertEqual(slot.get(handle).value, b"\x01")
        told: list[Any] = []

        def has_all() -> bool:
            told.extend(iter(lambda: slot.next_indication(0), None))
            return len(told) >= 8

        testing.wait_until(has_all)
        told += slot.indications(20_000)
        # Two calls and two marks, each with one of either kind round its answer.
        self.assertEqual([type(it) for it in told], [Silent, Alive] * 4)
        self.assertEqual(told[-1], Alive(handle))


class Indications(Case):
    """The lines of docs/SCRIPT.md as named tuples."""

    def setUp(self) -> None:
        super().setUp()
        self.slot = self.client()
        self.slot.subscribe(100)

    def tell(self, *lines: str) -> list[Any]:
        for line in lines:
            self.port.say(line)
        return list(self.slot.indications(SOON))

    def test_each(self) -> None:
        session = "0a0b0c0d-0000-0000-0000-000000000001"
        told = self.tell(
            "0 silent 1", "0 alive 1", "0 notified 2 10.0.0.2:17225 300 646f6f72 636172 0d",
            f"0 asked 2 3 {session} 10.0.0.2:17225 300 - 636172 -", "0 overrun 2",
            "0 replied 4 10.0.0.3:17225 Mp 7 301 0c", "0 replied 4 10.0.0.3:17225 Mq 0 301 -",
            "0 replied 4 10.0.0.3:17225 Me -5 301 -", "0 confirmed 3 9", "0 closed 4 Done")
        handle = self.slot._objects.declared[0]
        self.assertIs(told[0].handle, handle)
        self.assertEqual(told[1], Alive(handle))
        listener, replier, caller = told[2].listener, told[3].replier, told[5].caller
        self.assertEqual([(it.kind, it.number) for it in (listener, replier, caller)],
                         [("unknown", 2), ("replier", 3), ("unknown", 4)])
        self.assertEqual(told[2], Notified(listener, "10.0.0.2:17225", 300, "door", "car", b"\x0d"))
        self.assertEqual(told[3][1:], (replier, FIRST, "10.0.0.2:17225", 300, "", "car", b""))
        self.assertIsInstance(told[3], Asked)
        self.assertIsInstance(told[4], Overrun)
        self.assertEqual(told[5], Replied(caller, "10.0.0.3:17225", "Mp", 7, 301, b"\x0c"))
        self.assertEqual(told[6][2:], ("Mq", 0, 301, b""))
        self.assertEqual(told[7][2:], ("Me", -5, 301, b""))
        self.assertEqual(told[8], Confirmed(replier, 9))
        self.assertEqual((told[9].handle.number, told[9].reason), (4, "Done"))
        self.assertIsInstance(told[9], Closed)

    def test_other_lines_are_left_out(self) -> None:
        self.assertEqual(self.tell("0 done", "line fault Count", "0 handle 9", "", "0", "ok", "0 jumped 1"), [])

    def test_time(self) -> None:
        start = time.monotonic()
        self.assertIsNone(self.slot.next_indication(50_000))
        self.assertTrue(0.045 < time.monotonic() - start < 10)
        self.assertIsNone(self.slot.next_indication(0))
        self.port.say("0 silent 1")
        self.assertIsInstance(self.slot.next_indication(None), Silent)

    def test_callbacks(self) -> None:
        heard: list[Any] = []
        self.slot.on(Silent, heard.append)
        self.slot.on(Silent, lambda it: heard.append(self.slot.get(it.handle).value))
        self.slot.on(Closed, heard.append)
        for line in ("0 silent 1", "0 alive 1", "0 closed 7 NoReply"):
            self.port.say(line)
        self.slot.run(50_000)
        self.assertEqual([type(heard[0]), heard[1], heard[2].reason], [Silent, b"\x01", "NoReply"])
        self.slot.on(Alive, lambda _: 1 // 0)
        self.port.say("0 alive 1")
        self.assertRaises(ZeroDivisionError, self.slot.run, 50_000)
