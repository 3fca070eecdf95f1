"""A client at a port that isn't its slot's: it says so, and changes nothing there."""
from __future__ import annotations

import contextlib
import itertools
import pathlib
from collections.abc import Callable, Sequence

import made_node
from made_node import ANSWERS, MARKS, QUESTION
from test_paths import ANSWER_US, QUOTAS, Clients
from test_ports import DEVICE, HOME, control, node
from testing import CONTROL, OPERATOR, PD, SECOND
from trdp_slot import Busy, Kinds, NoAnswer, Operator, OperatorsPort, OtherSlot, Refused, Slot, SlotError

Call = Callable[[Slot], object]
# Each could be the first one.
CALLS: list[Call] = [
    lambda slot: slot.subscribe(1), lambda slot: slot.put(1, b"\x07"), lambda slot: slot.get(1),
    lambda slot: slot.unpublish(1), lambda slot: slot.notify(1, f"{DEVICE}:{PD}"), lambda slot: slot.reset()]
UNKNOWN = "line fault Unknown"


class WrongPorts(Clients):
    """A daemon of two slots, of which one has an application; here at control sockets."""

    def by_port(self, port: int, number: int | None = None) -> Slot:
        """A client at a port."""
        slot = Slot(self.folder if self.is_at_paths else HOME, port, number=number, answer_us=ANSWER_US)
        self.addCleanup(slot.close)
        return slot

    def by_swapped_ports(self) -> list[Slot]:
        """Clients of slot 0 by a configuration that has the two ports the other way round; over UDP one only looks."""
        path = pathlib.Path(self.folder, "swapped.toml")
        path.write_text(node(control(1, QUOTAS), control(0, QUOTAS)))
        made = [Slot(path, 0, answer_us=ANSWER_US, controls=self.folder if self.is_at_paths else None)]
        if not self.is_at_paths:
            made.append(Slot.look(path, 0, answer_us=ANSWER_US))
        for slot in made:
            self.addCleanup(slot.close)
        return made

    def each_raises(self, kind: type[SlotError], made: Sequence[Slot], calls: Sequence[Call] = CALLS) -> SlotError:
        """Each call of each client raises that. Answers the latest one."""
        for slot, call in itertools.product(made, calls):
            with self.assertRaises(kind) as caught:
                call(slot)
        return caught.exception

    def test_the_objects_of_another_slot_stay(self) -> None:
        self.starts()
        neighbour = self.slot(1)
        publisher, subscription = neighbour.publish(100, f"{DEVICE}:{PD}"), neighbour.subscribe(100)
        neighbour.put(publisher, b"\x01")
        wrong = [self.by_port(CONTROL + 1, 0), *self.by_swapped_ports()]
        fault = self.each_raises(Busy if self.is_at_paths else OtherSlot, wrong)
        self.assertEqual(neighbour.get(subscription).state, "Never")
        neighbour.put(publisher, b"\x02")
        self.assertEqual((publisher.number, subscription.number, neighbour.check()), (1, 2, True))
        self.assertEqual(self.operator().slots()[1].objects, Kinds(1, 1, 0, 0, 0, 0))
        self.assertIsNone(neighbour.next_indication(0))
        if self.is_at_paths:
            neighbour.close()
            fault = self.each_raises(OtherSlot, wrong)
            # Though they aren't closed, its application can connect, and nothing of theirs is there.
            self.assertEqual(self.operator().slots()[1].objects, Kinds(0, 0, 0, 0, 0, 0))
            self.assertEqual(self.slot(1).subscribe(100).number, 3)
        assert isinstance(fault, OtherSlot)
        self.assertEqual(fault.line, "1 refused NoHandle")

    def test_without_a_number_it_is_the_one_that_answers(self) -> None:
        self.starts()
        slot = self.by_port(CONTROL + 1)
        self.assertEqual(slot.subscribe(100).number, 1)
        self.assertEqual([it.objects.subscriptions for it in self.operator().slots()], [0, 1])

    def test_the_operators_port_is_no_slots(self) -> None:
        self.starts()
        made = [self.by_port(OPERATOR, number) for number in (None, 0, 0, 0, 0)]
        fault = self.each_raises(OperatorsPort, made, [*CALLS, lambda slot: slot.sync(), lambda slot: slot.check()])
        place = f"{self.folder}/{OPERATOR}" if self.is_at_paths else f"{HOME}:{OPERATOR}"
        self.assertEqual(str(fault), f"{place} is the operator's port, and no slot's")
        # Though they aren't closed, no operator is in another one's way.
        self.operator().role(1, True)

    def test_a_slots_port_is_not_the_operators(self) -> None:
        self.starts()
        place = f"{self.folder}/{CONTROL}" if self.is_at_paths else f"{HOME}:{CONTROL}"
        operator = Operator(place, answer_us=ANSWER_US) if self.is_at_paths else Operator(HOME, CONTROL)
        calls: list[Callable[[], object]] = [operator.totals, operator.slots, lambda: operator.role(1, True)]
        for call in calls:
            with self.assertRaisesRegex(Refused, f": {place} is a slot's port, and not the operator's$") as caught:
                call()
            self.assertEqual(caught.exception.name, "Unknown")


class WrongPortsByUdp(WrongPorts):
    """The same at UDP ports."""

    is_at_paths = False


class Questions(made_node.Case):
    """The line by which a client asks, at a port that is made up."""

    def said(self, call: Call, reset: bool) -> list[str]:
        """The lines by which a new client makes a call twice, without marks and remarks."""
        self.port.lines.clear()
        slot = self.client(reset=reset)
        slot.begin()
        slot.sync()
        self.assertTrue(slot.check())
        self.assertNotIn(QUESTION, self.port.lines)
        for _ in range(2):
            # The port has no such object.
            with contextlib.suppress(Refused):
                call(slot)
        return [it for it in self.port.lines if it not in MARKS and it != "#"]

    def test_it_goes_before_the_first_call_and_never_again(self) -> None:
        for call, reset in itertools.product(CALLS, (False, True)):
            with self.subTest(call=CALLS.index(call), reset=reset):
                said = self.said(call, reset)
                self.assertEqual((said[0], said.count(QUESTION)), (QUESTION, 1))
                self.assertEqual(said[1] == "reset", reset or call == CALLS[-1])

    def test_it_is_sent_again_where_no_answer_comes(self) -> None:
        left = iter([True, True])
        self.say = self.losing(lambda line: line == QUESTION and next(left, False))
        slot = self.client(reset=True)
        self.assertEqual(slot.publish(1, f"{DEVICE}:{PD}").number, 1)
        self.assertEqual([it for it in self.port.lines if it not in MARKS][:4], [QUESTION] * 3 + ["reset"])
        self.say, slot = lambda line: [], self.client(reset=True, answer_us=made_node.SOON)
        with self.assertRaisesRegex(NoAnswer, f"at 3 tries of {made_node.SOON} microseconds: get 0$"):
            slot.publish(1, f"{DEVICE}:{PD}")
        self.assertEqual(self.calls(), ["reset", "publish 1 0 0 0 0 0 127.0.8.7:18224"])

    def test_no_remark_goes_there_for_the_lease(self) -> None:
        for kind, answer in ((OtherSlot, "7 refused NoHandle"), (OperatorsPort, UNKNOWN)):
            self.say = lambda line: [answer] if line == QUESTION or answer == UNKNOWN else [MARKS[line]]
            slot = self.client(number=0, lease_us=60_000)
            self.assertRaises(kind, slot.get, 1)
            self.assertIsNone(slot.next_indication(100_000))
            self.assertNotIn("#", self.port.lines)

    def test_unknown_lines_of_a_program_make_it_no_operators_port(self) -> None:
        slot = self.client()
        self.say = lambda line: [ANSWERS.get(line, UNKNOWN)]
        for _ in range(3):
            slot.send_line("jump")
            slot.send_line("jump")
            slot.sync()
        slot.send_line("jump")
        self.assertRaises(Refused, slot.get, 0)

    def test_an_operators_port_is_known_though_an_answer_gets_lost(self) -> None:
        for lost in range(3):
            left = iter([it == lost for it in range(3)])
            self.say = lambda line: [] if line[:1] == "#" or next(left, False) else [UNKNOWN]
            slot = self.client(answer_us=SECOND // 2)
            self.assertRaises(OperatorsPort, slot.get, 1)
            self.assertRaises(OperatorsPort, slot.get, 1)
        # Other faults are no sign of it.
        self.say = lambda line: ["line fault Count"] if line not in MARKS else [UNKNOWN]
        slot = self.client(answer_us=made_node.SOON)
        self.assertRaises(NoAnswer, slot.get, 1)
