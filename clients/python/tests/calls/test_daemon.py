"""All calls and all indications, over two daemons on this machine."""
from __future__ import annotations

import socket
import struct
import uuid
from collections.abc import Callable
from typing import Any

from testing import CONTROL, MD, OPERATOR, PD, SECOND, wait_until
from trdp_slot import (Alive, Asked, Confirmed, DoesNotFit, Handle, Kinds, Notified, Operator, Overrun, Replied, Silent,
                       Slot, Usage)
from trdp_telegram import read_telegram
from two_daemons import DESK, DOOR, SINK, Case

# A machine may stand still for a while: in microseconds, at most.
STILL_US = 800_000


class ProcessData(Case):
    """Publishers, subscriptions and requesters."""

    def test_values_come_stop_and_come_again(self) -> None:
        zero = self.desk.subscribe(100, dataset=1001, low=DOOR, high=DOOR, dest=DESK, time_us=STILL_US)
        keep = self.desk.subscribe(100, dataset=1001, time_us=STILL_US, behaviour="keep")
        self.assertEqual((zero.number, keep.number), (1, 2))
        self.assertEqual(self.told(self.desk, Silent), Silent(zero))
        self.assertEqual(self.told(self.desk, Silent), Silent(keep))
        publisher = self.door.publish(100, f"{DESK}:{PD}", dataset=1001, cycle_us=10_000)
        self.door.put(publisher, [2, [700, 800]])
        self.assertEqual(self.told(self.desk, Alive), Alive(zero))
        self.assertEqual(self.told(self.desk, Alive), Alive(keep))
        first = self.desk.get(zero)
        self.assertEqual((first.state, first.value), ("Valid", [2, [700, 800]]))
        self.assertEqual(self.desk.get(zero.number).value, struct.pack(">BHH", 2, 700, 800))
        wait_until(lambda: self.desk.get(zero).counter >= first.counter + 2)
        self.door.put(publisher, [1, [65535]])
        wait_until(lambda: bool(self.desk.get(zero).value == [1, [65535]]))
        self.door.unpublish(publisher)
        self.assertEqual(self.told(self.desk, Silent), Silent(zero))
        self.assertEqual(self.told(self.desk, Silent), Silent(keep))
        self.assertEqual(self.desk.get(zero)[0::2], ("Silent", [0, []]))
        self.assertEqual(self.desk.get(keep)[0::2], ("Silent", [1, [65535]]))
        self.desk.unsubscribe(keep)
        publisher = self.door.publish(100, f"{DESK}:{PD}", dataset=1001, cycle_us=10_000)
        self.assertEqual(publisher.number, 2)
        self.door.put(publisher, [0, []])
        self.assertEqual(self.told(self.desk, Alive), Alive(zero))

    def test_before_the_first_telegram_the_value_is_zero(self) -> None:
        # rule: subscription.first: Never, counter 0 and the zero value
        # rule: dataset.zero: numbers are 0, and the counted array is empty
        self.assertEqual(self.desk.get(self.desk.subscribe(100, dataset=1002)), ("Never", 0, [0, (0, 0), [0, []]]))
        self.assertEqual(self.desk.get(self.desk.subscribe(100)), ("Never", 0, b""))

    def test_pull(self) -> None:
        publisher = self.door.publish(100, f"{SINK}:{PD}")
        self.door.put(publisher, b"\x0a\x0b")
        subscription = self.desk.subscribe(100)
        requester = self.desk.openpull(200, f"{DOOR}:{PD}", reply_com_id=100)
        self.desk.pull(requester)
        wait_until(lambda: self.desk.get(subscription).state == "Valid")
        self.assertEqual(self.desk.get(subscription), ("Valid", 0, b"\x0a\x0b"))
        self.desk.pull(requester)
        wait_until(lambda: self.desk.get(subscription).counter == 1)
        other = self.desk.openpull(100, f"{DOOR}:{PD}", reply_address=DESK)
        self.desk.pull(other)
        wait_until(lambda: self.desk.get(subscription).counter == 2)
        self.desk.closepull(requester)
        self.refused("NoHandle", self.desk.pull, requester)

    def test_a_follower_is_silent(self) -> None:
        # rule: publisher.send: is heard only while the node leads the group
        publisher = self.door.publish(100, f"{DESK}:{PD}", cycle_us=1000, group=3)
        self.door.put(publisher, b"\x01")
        subscription = self.desk.subscribe(100, time_us=100_000)
        self.assertIsInstance(self.told(self.desk, Silent), Silent)
        operator = Operator(DOOR, OPERATOR, answer_us=SECOND)
        operator.role(3, True)
        self.assertEqual(self.told(self.desk, Alive), Alive(subscription))
        operator.role(3, False)
        self.assertEqual(self.told(self.desk, Silent), Silent(subscription))
        self.refused("NoGroup", operator.role, 0, True)

    def test_the_longest_value(self) -> None:
        publisher = self.door.publish(100, f"{DESK}:{PD}", dataset=1600, cycle_us=10_000)
        subscription = self.desk.subscribe(100, dataset=1600)
        value = [1430, [it % 256 for it in range(1430)]]
        self.door.put(publisher, value)
        wait_until(lambda: self.desk.get(subscription).state == "Valid")
        self.assertEqual(self.desk.get(subscription).value, value)
        with self.assertRaisesRegex(DoesNotFit, "^dataset 1600: the value has 1433 bytes, and at most 1432 are"):
            self.door.put(publisher, [1431, [0] * 1431])
        with self.assertRaisesRegex(DoesNotFit, "^dataset 1600, element 1, item 2: 256 is no UINT8, 0 to 255$"):
            self.door.put(publisher, [3, [0, 1, 256]])


class MessageData(Case):
    """Listeners, callers and repliers."""

    def ask(self, **words: Any) -> tuple[Handle, Asked]:
        """The desk asks; the door listens, and hears it."""
        listener = self.door.listen(300, low=DESK, high=DESK, dest=DOOR)
        words = {"time_us": 20 * SECOND, **words}
        caller = self.desk.request(300, f"{DOOR}:{MD}", b"\x0d", **words)
        asked = self.told(self.door, Asked)
        self.assertIs(asked.listener, listener)
        return caller, asked

    def test_notify(self) -> None:
        some = self.door.listen(300, uri="car")
        every = self.door.listen(None)
        self.desk.notify(300, f"{DOOR}:{MD}", b"\x0d", source_uri="door", dest_uri="car")
        self.assertEqual(self.told(self.door, Notified), Notified(some, f"{DESK}:{MD}", 300, "door", "car", b"\x0d"))
        self.desk.notify(301, f"{DOOR}:{MD}", [1, [5]], dataset=1001)
        told = self.told(self.door, Notified)
        self.assertEqual(told, Notified(every, f"{DESK}:{MD}", 301, "", "", b"\x01\x00\x05"))
        self.assertEqual(self.door.datasets.unpack(1001, told.payload), [1, [5]])
        self.door.unlisten(every)
        self.desk.notify(301, f"{DOOR}:{MD}")
        self.assertIsNone(self.door.next_indication(50_000))

    def test_a_long_message(self) -> None:
        self.door.listen(300)
        payload = bytes(it % 251 for it in range(32_000))
        self.desk.notify(300, f"{DOOR}:{MD}", payload)
        self.assertEqual(self.told(self.door, Notified).payload, payload)

    def test_reply(self) -> None:
        session = uuid.UUID(int=77)
        caller, asked = self.ask(session=session, source_uri="desk", dest_uri="doors")
        self.assertEqual(asked[2:], (session, f"{DESK}:{MD}", 300, "desk", "doors", b"\x0d"))
        self.door.reply(asked.replier, 301, b"\x0c", status=7)
        self.assertEqual(self.told(self.desk, Replied), Replied(caller, f"{DOOR}:{MD}", "Mp", 7, 301, b"\x0c"))
        self.closed(self.desk, caller, "Done")
        self.refused("NoHandle", self.door.reply, asked.replier, 301)

    def test_query_and_confirm(self) -> None:
        caller, asked = self.ask()
        self.door.query(asked.replier, 301, [1, [5]], dataset=1001, time_us=20 * SECOND)
        replied = self.told(self.desk, Replied)
        self.assertEqual(replied, Replied(caller, f"{DOOR}:{MD}", "Mq", 0, 301, b"\x01\x00\x05"))
        self.refused("State", self.door.reply, asked.replier, 301)
        self.refused("State", self.door.query, asked.replier, 301)
        self.refused("State", self.door.replyerror, asked.replier, 301, -1)
        self.refused("Status", self.desk.confirm, caller, replied.source, -1)
        self.refused("State", self.desk.confirm, caller, f"{SINK}:{MD}")
        self.desk.confirm(caller, replied.source, 9)
        self.assertEqual(self.told(self.door, Confirmed), Confirmed(asked.replier, 9))
        self.closed(self.desk, caller, "Done")

    def test_replyerror(self) -> None:
        caller, asked = self.ask()
        self.door.replyerror(asked.replier, 301, -5)
        self.assertEqual(self.told(self.desk, Replied), Replied(caller, f"{DOOR}:{MD}", "Me", -5, 301, b""))
        self.closed(self.desk, caller, "Done")

    def test_no_reply(self) -> None:
        # rule: caller.reason: NoReply without an answer
        self.closed(self.desk, self.desk.request(300, f"{DOOR}:{MD}", time_us=20_000), "NoReply")

    def test_reply_missed(self) -> None:
        # rule: replier.reason: ReplyMissed without an answer
        caller, asked = self.ask(time_us=40_000)
        self.closed(self.door, asked.replier, "ReplyMissed")
        self.closed(self.desk, caller, "NoReply")

    def test_not_all_replies(self) -> None:
        # rule: caller.reason: NotAllReplies with one answer of two
        caller, asked = self.ask(time_us=STILL_US, expected=2)
        self.door.reply(asked.replier, 301)
        self.told(self.desk, Replied)
        self.closed(self.desk, caller, "NotAllReplies")

    def test_whoever_answers(self) -> None:
        # rule: caller.complete: a caller of any number ends after its answer
        caller, asked = self.ask(time_us=STILL_US, expected=0)
        self.door.reply(asked.replier, 301)
        self.told(self.desk, Replied)
        self.closed(self.desk, caller, "Done")

    def test_not_confirmed(self) -> None:
        # rule: caller.reason: NotConfirmed with an unconfirmed query
        caller, asked = self.ask(time_us=STILL_US)
        self.door.query(asked.replier, 301, time_us=100_000)
        self.assertEqual(self.told(self.desk, Replied).kind, "Mq")
        self.closed(self.door, asked.replier, "NoConfirm")
        self.closed(self.desk, caller, "NotConfirmed")

    def test_overrun(self) -> None:
        # rule: replier.overrun: a third session at a quota of two is overrun
        listener = self.door.listen(300)
        for _ in range(3):
            self.desk.request(300, f"{DOOR}:{MD}", time_us=20 * SECOND)
        self.told(self.door, Asked)
        self.told(self.door, Asked)
        self.assertEqual(self.told(self.door, Overrun), Overrun(listener))

    def test_abort(self) -> None:
        # rule: call.abort: a caller and a replier end at it
        caller, asked = self.ask()
        self.desk.abort(caller)
        self.refused("NoHandle", self.desk.abort, caller)
        self.door.abort(asked.replier)
        self.refused("NoHandle", self.door.reply, asked.replier, 301)

    def test_retries(self) -> None:
        # rule: caller.repeat: two retries give two repeats, and then the caller ends
        # rule: message.counter: the three telegrams have counters 0, 1 and 2
        with socket.socket(socket.AF_INET, socket.SOCK_DGRAM) as sink:
            sink.bind((SINK, MD))
            sink.settimeout(20)
            caller = self.desk.request(300, f"{SINK}:{MD}", b"\x0d", time_us=20_000, retries=2)
            telegrams = [read_telegram(sink.recv(65536), True) for _ in range(3)]
        told = [(it.kind, it.counter, it.payload) for it in telegrams]
        self.assertEqual(told, [("Mr", it, b"\x0d") for it in range(3)])
        self.closed(self.desk, caller, "NoReply")


class Refusals(Case):
    """Each refusal of docs/SCRIPT.md that a datagram can bring about."""

    def test_each(self) -> None:
        # rule: out.refusal: every refusal but Quota and Exhausted comes under its name
        slot, place = self.door, f"{DESK}:{PD}"
        publisher = slot.publish(100, place, dataset=1001)
        plain = slot.publish(100, place)
        subscription = slot.subscribe(100)
        requester = slot.openpull(100, place, etb=1)
        caller = slot.request(300, f"{SINK}:{MD}", session=uuid.UUID(int=1), time_us=100 * SECOND)
        self.desk.request(300, f"{DOOR}:{MD}")
        slot.listen(300)
        self.desk.request(300, f"{DOOR}:{MD}", time_us=100 * SECOND)
        replier = self.told(slot, Asked).replier
        Operator(DOOR, OPERATOR, answer_us=SECOND).topology(2, 0)
        for name, call, *words in [
            ("NoHandle", slot.get, 99), ("NoHandle", slot.put, 99, b""), ("NoHandle", slot.abort, 99),
            ("WrongKind", slot.get, publisher), ("WrongKind", slot.put, subscription, b""),
            ("WrongKind", slot.unpublish, subscription), ("WrongKind", slot.reply, caller, 301),
            ("WrongKind", slot.pull, subscription), ("WrongKind", slot.unlisten, caller),
            ("State", slot.pull, requester),
            ("Status", lambda: slot.reply(replier, 301, status=-1)),
            ("Status", lambda: slot.query(replier, 301, status=-1)), ("State", slot.confirm, caller, place, -1),
            ("Status", slot.replyerror, replier, 301, 0), ("State", slot.confirm, caller, f"{SINK}:{MD}"),
            ("State", lambda: slot.notify(300, place, etb=1)), ("State", lambda: slot.request(300, place, etb=1)),
            ("Cycle", lambda: slot.publish(1, place, cycle_us=999)),
            ("Cycle", lambda: slot.publish(1, place, cycle_us=1)),
            ("Timeout", lambda: slot.subscribe(1, time_us=999)),
            ("Timeout", lambda: slot.request(1, place, time_us=999)),
            ("Timeout", lambda: slot.query(replier, 301, time_us=999)),
            ("Expected", lambda: slot.request(1, place, expected=9)),
            ("Retries", lambda: slot.request(1, place, retries=3)),
            ("Range", lambda: slot.subscribe(1, low="10.0.0.2", high="10.0.0.1")),
            ("Range", lambda: slot.listen(1, low="10.0.0.2", high="10.0.0.1")),
            ("NoDataset", lambda: slot.publish(1, place, dataset=9999)),
            ("NoDataset", lambda: slot.subscribe(1, dataset=9999)),
            ("TooLong", lambda: slot.publish(1, place, dataset=1500)),
            ("TooLong", lambda: slot.subscribe(1, dataset=1500)), ("TooLong", slot.put, plain, bytes(1433)),
            ("Shape", slot.put, publisher, b"\x02\x00"), ("Shape", slot.put, publisher, b""),
            ("SessionOpen", lambda: slot.request(1, place, session=uuid.UUID(int=1))),
        ]:
            with self.subTest(name, words=words):
                self.refused(name, call, *words)

    def test_quotas(self) -> None:
        # rule: slot.quota: of five kinds one object beyond the quota is refused
        slot, place = self.door, f"{SINK}:{PD}"
        quotas: list[tuple[int, Callable[[], object]]] = [
            (4, lambda: slot.publish(1, place)), (4, lambda: slot.subscribe(1)), (2, lambda: slot.openpull(1, place)),
            (2, lambda: slot.listen(1)), (4, lambda: slot.request(1, place)),
        ]
        for count, call in quotas:
            for _ in range(count):
                call()
            self.refused("Quota", call)


class Slots(Case):
    """Slots that are added."""

    def test_a_slot_is_added(self) -> None:
        # rule: slot.added: the added slot is slot 1, and its publisher is heard
        # rule: slot.limit: sixteen slots are there before one is refused
        # rule: slot.full: the seventeenth slot is SlotsFull
        operator = Operator(DOOR, OPERATOR, answer_us=SECOND)
        operator.addslot(publishers=1)
        late = self.client(Slot(str(self.daemons[0].path), 1, answer_us=SECOND))
        publisher = late.publish(100, f"{DESK}:{PD}", cycle_us=10_000)
        self.assertEqual(publisher.number, 1)
        late.put(publisher, b"\x01")
        subscription = self.desk.subscribe(100)
        wait_until(lambda: self.desk.get(subscription).state == "Valid")
        for _ in range(14):
            operator.addslot()
        self.refused("SlotsFull", operator.addslot)

    def test_a_slot_begins_anew(self) -> None:
        # rule: slot.reset: its publisher is silent, its quota whole, the next handle goes on
        subscription = self.desk.subscribe(100, time_us=100_000)
        self.assertEqual(self.told(self.desk, Silent), Silent(subscription))
        before = [self.door.publish(100, f"{DESK}:{PD}", cycle_us=10_000) for _ in range(4)]
        self.door.put(before[0], b"\x01")
        self.assertEqual(self.told(self.desk, Alive), Alive(subscription))
        self.refused("Quota", self.door.publish, 100, f"{DESK}:{PD}")
        self.door.reset()
        self.assertEqual(self.told(self.desk, Silent), Silent(subscription))
        self.refused("NoHandle", self.door.put, before[0].number, b"\x02")
        self.assertEqual(self.door.publish(100, f"{DESK}:{PD}").number, before[-1].number + 1)
        # On a slow machine that which was told may have been of a time before the reset.
        wait_until(lambda: self.desk.get(subscription).state == "Silent")

    def test_what_an_operator_is_told(self) -> None:
        # rule: control.question: totals and slots are answered with counts, quotas and silence
        operator = Operator(DOOR, OPERATOR, answer_us=SECOND)
        self.door.listen(300)
        self.door.publish(100, f"{DESK}:{PD}")
        self.door.publish(100, f"{DESK}:{PD}")
        operator.addslot(publishers=3, repliers=256)
        first, second = operator.totals(), operator.totals()
        self.assertEqual((second.taken, second.offered), (first.taken + 1, first.offered + 1))
        self.assertEqual((second.lost, second.unread, second.memory), (0, 0, 0))
        door, late = operator.slots()
        self.assertEqual(door[:3], (0, Kinds(2, 0, 0, 1, 0, 0), Kinds(4, 4, 2, 2, 4, 2)))
        self.assertEqual(late, Usage(1, Kinds(0, 0, 0, 0, 0, 0), Kinds(3, 0, 0, 0, 0, 256), None))
        self.assertIsNotNone(door.silent_us)
        since = door.silent_us or 0
        self.assertLess(since, 60 * SECOND)
        wait_until(lambda: (operator.slots()[0].silent_us or 0) > since)

    def test_a_client_by_address(self) -> None:
        slot = self.client(Slot(DOOR, CONTROL, answer_us=SECOND))
        publisher = slot.publish(100, f"{DESK}:{PD}", dataset=1001, cycle_us=1000)
        slot.put(publisher, b"\x01\x00\x05")
        with self.assertRaisesRegex(DoesNotFit, "isn't known here"):
            slot.put(publisher, [1, [5]])
