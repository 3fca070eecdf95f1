"""How a client makes its objects again: at a port that is made up, without a daemon."""
from __future__ import annotations

import contextlib
import itertools
from typing import Any

import trdp_slot
from made_node import Case
from trdp_slot import Refused, Restarted, Slot


class Restarts(Case):
    """A daemon that was started again."""

    def declare(self, **words: Any) -> tuple[Slot, dict[str, trdp_slot.Handle]]:
        slot = self.client(**words)
        handles = {
            "publisher": slot.publish(100, "10.0.0.2:17224", cycle_us=1000), "subscription": slot.subscribe(101),
            "requester": slot.openpull(102, "10.0.0.2:17224"), "caller": slot.request(103, "10.0.0.2:17225"),
            "listener": slot.listen(104),
        }
        slot.put(handles["publisher"], b"\x07")
        return slot, handles

    def test_all_that_was_declared_is_made_again(self) -> None:
        slot, handles = self.declare(restore=True)
        made = [self.node.made[it] for it in (1, 2, 3, 5)]
        self.node.start_anew()
        self.assertEqual(slot.get(handles["subscription"]), ("Valid", 2, b"\x02"))
        self.assertEqual(list(self.node.made.values()), made)
        self.assertEqual(self.node.put, {"1": "07"})
        told = slot.next_indication(0)
        assert isinstance(told, Restarted)
        self.assertEqual([it.kind for it in told.declared], ["publisher", "subscription", "requester", "listener"])
        self.assertEqual(told.lost, (handles["caller"],))
        self.assertEqual([it.number for it in told.declared], [1, 2, 3, 4])
        self.assertRaises(Refused, slot.abort, handles["caller"])
        self.assertEqual(list(self.node.made.values()), made)
        slot.put(handles["publisher"], b"\x08")
        slot.pull(handles["requester"])
        slot.unlisten(handles["listener"])
        self.assertIsNone(slot.next_indication(0))

    def test_put_that_notices_it_has_the_last_word(self) -> None:
        slot, handles = self.declare(restore=True)
        self.node.start_anew()
        slot.put(handles["publisher"], b"\x09")
        self.assertEqual(self.node.put, {"1": "09"})

    def test_a_new_object_notices_it(self) -> None:
        slot, handles = self.declare(restore=True)
        self.node.start_anew()
        new = slot.subscribe(105)
        # It was the first one there, and made again after the reset and the others.
        self.assertEqual(new.number, max(self.node.made))
        self.assertEqual(len(self.node.made), 5)
        self.assertEqual(slot.get(handles["subscription"]).counter, handles["subscription"].number)
        self.assertEqual(slot.get(new).counter, new.number)

    def test_an_end_notices_it(self) -> None:
        slot, handles = self.declare(restore=True)
        self.node.start_anew()
        slot.unpublish(handles["publisher"])
        self.assertEqual([it.split()[0] for it in self.node.made.values()], ["subscribe", "openpull", "listen"])

    def test_check_notices_it(self) -> None:
        slot, handles = self.declare(restore=True)
        self.assertTrue(slot.check())
        self.node.start_anew()
        self.assertFalse(slot.check())
        self.assertTrue(slot.check())
        self.assertEqual(len(self.node.made), 4)

    def test_a_reset_leaves_nothing_for_check_to_tell(self) -> None:
        for restore, is_noticed in itertools.product((False, True), repeat=2):
            slot, handles = self.declare(restore=restore)
            self.node.start_anew()
            if is_noticed:
                with contextlib.suppress(Refused):
                    slot.get(handles["subscription"])
                self.assertIsInstance(slot.next_indication(0), Restarted)
            slot.reset()
            self.assertTrue(slot.check())
            # Its number was given before the restart too.
            self.assertLessEqual(slot.subscribe(105).number, 5)
            self.assertEqual((slot.check(), slot.next_indication(0)), (True, None))
            # An earlier handle is none of the new object.
            for handle in handles.values():
                self.assertRaises(Refused, slot.get, handle)

    def test_without_restore_it_is_refused(self) -> None:
        slot, handles = self.declare()
        self.node.start_anew()
        with self.assertRaises(Refused) as caught:
            slot.put(handles["publisher"], b"\x01")
        self.assertEqual(caught.exception.name, "NoHandle")
        self.assertIsInstance(slot.next_indication(0), Restarted)
        self.assertEqual(self.node.made, {})
        # An earlier handle isn't taken for the object that has its number now.
        again = slot.subscribe(200)
        self.assertEqual(again.number, handles["publisher"].number)
        count = len(self.calls())
        with self.assertRaises(Refused):
            slot.put(handles["publisher"], b"\x01")
        self.assertEqual(len(self.calls()), count)
        slot.unpublish(handles["publisher"])
        self.assertEqual(list(self.node.made), [1])

    def test_twice(self) -> None:
        slot, handles = self.declare(restore=True)
        for _ in range(3):
            self.node.start_anew()
            self.assertEqual(slot.get(handles["subscription"]).state, "Valid")
            self.assertEqual((len(self.node.made), self.node.put), (4, {"1": "07"}))

    def test_a_restart_while_objects_are_made_again(self) -> None:
        slot, handles = self.declare(restore=True)
        self.node.start_anew()
        anew = iter([False, True])

        def say(line: str) -> list[str]:
            if line.startswith("subscribe") and next(anew, True):
                self.node.start_anew()
                self.say = self.node.answer
            return self.node.answer(line)

        self.say = say
        anew = iter([True])
        slot.pull(handles["requester"])
        self.assertEqual(sorted(it.split()[0] for it in self.node.made.values()),
                         ["listen", "openpull", "publish", "subscribe"])
        self.assertEqual(set(self.node.put.values()), {"07"})

    def test_silence_while_objects_are_made_again(self) -> None:
        slot, handles = self.declare(restore=True)
        self.node.start_anew()
        self.say = self.losing(lambda line: line.startswith("openpull"))
        with self.assertRaises(TimeoutError):
            slot.get(handles["subscription"])
        self.say = self.node.answer
        slot.pull(handles["requester"])
        slot.unlisten(handles["listener"])
        self.assertEqual(slot.get(handles["subscription"]).counter, handles["subscription"].number)
