"""Calls with values by names and with dataclasses: at a port that is made up, without a daemon."""
from __future__ import annotations

import asyncio
import tempfile
import uuid
from typing import Any

from made_node import ADDRESS, PATIENCE, Case
from test_records import DATA, DOORS, VALUE, Doors, Lamp
from trdp_slot import AsyncSlot, DoesNotFit, Slot, Value

PLACE = "10.0.0.2:17224"
NAMES = """
[node]
address = "{0}"
[[slot]]
control_port = {1}
[[dataset]]
id = 41
element = [{{ type = "BOOL8", name = "on" }}]
"""


class Named(Case):
    """Every call that takes or returns a value."""

    def setUp(self) -> None:
        super().setUp()
        self.say = self.say_one

    def say_one(self, line: str) -> list[str]:
        """What the node answers; the subscription of the handle 2 shows 1."""
        return ["0 value Valid 7 01"] if line == "get 2" else self.node.answer(line)

    def test_calls_that_take_a_value(self) -> None:
        """Each takes a dict by names, and an instance of a dataclass, which knows its dataset."""
        slot = self.client(datasets=DOORS)
        status, session = slot.publish(2101, PLACE, dataset=40), uuid.UUID(int=1)
        slot.put(status, VALUE)
        slot.notify(300, PLACE, {"on": True}, dataset=41)
        caller = slot.request(300, PLACE, Lamp(7), session=session)
        slot.query(caller, 300, {"on": 1}, dataset=41, time_us=1000)
        slot.reply(caller, 300, Lamp(False), dataset=41)
        self.assertEqual(self.calls()[1:], [
            f"put 1 {DATA.hex()}", f"notify 300 - - 0 0 {PLACE} 01",
            f"request 300 {session} 1 5000000 - - 0 0 {PLACE} 07", "query 2 300 0 1000 01", "reply 2 300 0 00"])
        with self.assertRaisesRegex(DoesNotFit, "^doors: Lamp is of dataset 41$"):
            slot.put(status, Lamp())

    def test_what_get_returns(self) -> None:
        """It is a dict where the slot is named, and an instance where a class is given."""
        slot = self.client(datasets=DOORS, named=True)
        handles = [slot.subscribe(300, dataset=41) for _ in range(2)]
        self.assertEqual(slot.get(handles[1]), Value("Valid", 7, {"on": True}))
        self.assertEqual(slot.get(handles[1], into=Lamp), Value("Valid", 7, Lamp(True)))
        self.assertEqual(slot.get(2, into=Lamp).value, Lamp(True))
        with self.assertRaisesRegex(DoesNotFit, "^dataset 41: Doors is of dataset 40$"):
            slot.get(handles[1], into=Doors)
        count, no_class = len(self.calls()), int
        self.assertRaises(TypeError, slot.get, handles[1], into=no_class)
        self.assertEqual(len(self.calls()), count)
        self.assertFalse(DOORS.named)

    def test_the_ways_to_make_it(self) -> None:
        """A slot of a configuration, one that only looks, and one of asyncio are named, too."""
        with tempfile.NamedTemporaryFile("w", suffix=".toml") as file:
            file.write(NAMES.format(ADDRESS, self.port.number))
            file.flush()
            for named, value in ((False, [1]), (True, {"on": True})):
                with Slot.look(file.name, 0, answer_us=PATIENCE, named=named) as slot:
                    self.assertEqual(slot.datasets.unpack(41, b"\x01"), value)

            async def get() -> Any:
                async with AsyncSlot(Slot(file.name, 0, answer_us=PATIENCE, named=True)) as slot:
                    await slot.subscribe(300, dataset=41)
                    handle = await slot.subscribe(300, dataset=41)
                    return [(await slot.get(handle)).value, (await slot.get(handle, into=Lamp)).value]

            self.assertEqual(asyncio.run(get()), [{"on": True}, Lamp(True)])
