"""A daemon that ends, begins anew or halts, and a network that loses and doubles."""
from __future__ import annotations

import random
import signal

import testing
from test_edge import is_in
from testing import CONTROL, MD, PD, SECOND, wait_until
from trdp_slot import Notified, Restarted, Silent, Slot
from two_daemons import DESK, DOOR, FRONT, SINK, Case

# How often a call is made in a network that loses.
TRIES = 400


class Restarts(Case):
    """A daemon that is ended and started again."""

    def test_objects_are_made_again(self) -> None:
        path = str(self.daemons[0].path)
        door = self.client(Slot(path, 0, answer_us=SECOND, restore=True))
        listener = door.listen(300)
        subscription = self.desk.subscribe(100, dataset=1001, time_us=50_000)
        publisher = door.publish(100, f"{DESK}:{PD}", dataset=1001, cycle_us=5_000)
        own = door.subscribe(101)
        door.put(publisher, [1, [7]])
        caller = door.request(300, f"{SINK}:{MD}", time_us=100 * SECOND)
        wait_until(lambda: bool(self.desk.get(subscription).value == [1, [7]]))
        self.daemons[0].end()
        self.assertRaises(TimeoutError, door.get, own)
        wait_until(lambda: self.desk.get(subscription)[0::2] == ("Silent", [0, []]))
        self.daemons[0].start()
        self.assertEqual(door.get(own).state, "Never")
        told = self.told(door, Restarted)
        self.assertEqual((told.declared, told.lost), ((listener, publisher, own), (caller,)))
        wait_until(lambda: self.desk.get(subscription)[0::2] == ("Valid", [1, [7]]))
        self.desk.notify(300, f"{DOOR}:{MD}", b"\x01")
        self.assertIs(self.told(door, Notified).listener, listener)
        self.daemons[0].end()
        self.daemons[0].start()
        self.assertFalse(door.check())
        self.assertTrue(door.check())
        self.desk.notify(300, f"{DOOR}:{MD}", b"\x02")
        self.told(door, Restarted)
        self.assertIs(self.told(door, Notified).listener, listener)

    def test_it_is_noticed(self) -> None:
        publisher = self.door.publish(100, f"{DESK}:{PD}")
        self.daemons[0].end()
        self.daemons[0].start()
        self.refused("NoHandle", self.door.put, publisher, b"\x01")
        self.assertEqual(self.told(self.door, Restarted), Restarted((publisher,), ()))

    def test_a_daemon_that_halts_for_a_while(self) -> None:
        door = self.client(Slot(DOOR, CONTROL, answer_us=SECOND))
        one, two = door.subscribe(100, time_us=100_000), door.subscribe(101)
        self.daemons[0].process.send_signal(signal.SIGSTOP)
        wait_until(lambda: is_in(self.daemons[0], "T"))
        door.answer_us = 60_000
        for _ in range(3):
            self.assertRaises(TimeoutError, door.get, one)
        self.assertRaises(TimeoutError, door.publish, 102, f"{DESK}:{PD}")
        door.answer_us = SECOND
        self.daemons[0].process.send_signal(signal.SIGCONT)
        self.assertEqual(self.told(door, Silent), Silent(one))
        wait_until(lambda: self.answers(door))
        self.assertEqual(door.get(two).state, "Never")
        # That which got no answer was made all the same.
        self.assertEqual(door.publish(103, f"{DESK}:{PD}").number, 4)

    @staticmethod
    def answers(slot: Slot) -> bool:
        try:
            slot.sync()
        except TimeoutError:
            return False
        return True


class Losses(Case):
    """A network between the client and its daemon that loses and doubles."""

    def through(self, seed: int, both_ways: bool) -> None:
        relay = testing.Relay(FRONT, (DOOR, CONTROL), seed, lost=5, doubled=4, both_ways=both_ways)
        self.addCleanup(relay.close)
        slot = Slot.look(FRONT, relay.number, datasets=self.door.datasets, answer_us=20_000, tries=TRIES)
        self.addCleanup(slot.close)
        # Made without losses.
        publisher = self.door.publish(100, f"{SINK}:{PD}", dataset=1001).number
        zeros = {self.door.subscribe(100, dataset=it).number: it for it in (1001, 1002, 1600)}
        chance = random.Random(seed)
        for _ in range(150):
            match chance.randrange(5):
                case 0:
                    slot.put(publisher, bytes.fromhex("010005"))
                case 1:
                    self.refused("Shape", slot.put, publisher, b"\x01")
                case 2:
                    self.refused("NoHandle", slot.get, 99)
                case 3:
                    self.refused("WrongKind", slot.get, publisher)
                case _:
                    handle, dataset = chance.choice(list(zeros.items()))
                    size = slot.datasets.zero_size(dataset)
                    self.assertEqual(slot.get(handle), ("Never", 0, bytes(size)))
        self.assertGreater(min(relay.counts.values()), 20)

    def test_answers_are_lost_and_doubled(self) -> None:
        self.through(1, both_ways=False)

    def test_calls_are_lost_and_doubled_too(self) -> None:
        self.through(2, both_ways=True)

    def test_objects_are_made_once(self) -> None:
        relay = testing.Relay(FRONT, (DOOR, CONTROL), 3, lost=4, doubled=4, both_ways=False)
        self.addCleanup(relay.close)
        slot = Slot(FRONT, relay.number, answer_us=20_000, tries=TRIES)
        self.addCleanup(slot.close)
        made = lost = 0
        while made + lost < 300 and (made + lost < 30 or min(made, lost) < 4):
            try:
                handle = slot.subscribe(100)
            except TimeoutError:
                # The object was made, and its number is the next one. The answer may have been late, too.
                lost += 1
                slot.unsubscribe(made + lost)
                continue
            made += 1
            self.assertEqual(handle.number, made + lost)
            slot.unsubscribe(handle)
        self.assertGreater(min(made, lost), 3)
