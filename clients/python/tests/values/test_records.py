"""Values as instances of dataclasses, by the class variables that say what each field is."""
from __future__ import annotations

import unittest
from collections.abc import Callable, Mapping
from dataclasses import dataclass, field
from typing import Any, ClassVar

from test_values import datasets
from trdp_slot import DoesNotFit, Handle, Notified

DOORS = datasets("""
[[dataset]]
id = 40
name = "doors"
element = [
    { type = 8 },
    { type = 8, size = 0, name = "state" },
    { type = 10, as = "REAL32", name = "class" },
    { type = 41, size = 2 },
    { type = 9, name = "count" },
    { type = "CHAR8", size = 0, name = "text" },
]
[[dataset]]
id = 41
element = [{ type = "BOOL8", name = "on" }]
[[telegram]]
com_id = 300
dataset = 41
""")
DATA = bytes.fromhex("02" "0002" "3fc00000" "01" "07" "0003" "616200")


@dataclass
class Lamp:
    """Dataset 41."""

    trdp_dataset: ClassVar[int] = 41
    trdp_elements: ClassVar[Mapping[str, str | int]] = {"on": "on"}
    trdp_classes: ClassVar[Mapping[str, type[Any]]] = {}

    on: bool | int = False


@dataclass
class Doors:
    """Dataset 40, whose first count has no field."""

    trdp_dataset: ClassVar[int] = 40
    trdp_elements: ClassVar[Mapping[str, str | int]] = {
        "state": "state", "class_": "class", "element_3": 3, "count": "count", "text": "text"}
    trdp_classes: ClassVar[Mapping[str, type[Any]]] = {"element_3": Lamp}

    state: list[int]
    class_: float
    count: int
    text: str | list[int]
    element_3: list[Lamp] = field(default_factory=lambda: [Lamp(), Lamp()])


VALUE = Doors([0, 2], 1.5, 3, "ab", [Lamp(True), Lamp(7)])


def changed(elements: Mapping[str, str | int], classes: Mapping[str, Any]) -> type[Any]:
    """A class of dataset 40 with other class variables."""
    return type("Other", (Doors,), {"trdp_elements": elements, "trdp_classes": classes})


class Records(unittest.TestCase):
    """Instances of dataclasses."""

    def test_an_instance_and_its_bytes(self) -> None:
        """An instance is packed as a dict is, alone and within other values, and comes back."""
        in_dicts = [2, [0, 2], 1.5, [{"on": True}, Lamp(7)], 3, "ab"]
        for value in (VALUE, in_dicts, Doors([0, 2], 1.5, 3, "ab", [[True], {"on": 7}])):  # type: ignore[list-item]
            self.assertEqual(DOORS.pack(40, value), DATA)
        self.assertEqual(DOORS.unpack(40, DATA, into=Doors), VALUE)
        self.assertEqual(DOORS.unpack(0, b"\x01", into=Lamp), Lamp(True))
        told = Notified(Handle("listener", 1), "10.0.0.2:17225", 300, "", "", b"\x00")
        self.assertEqual(DOORS.of_message(told, into=Lamp), Lamp(False))

    def test_what_is_no_instance_of_the_dataset(self) -> None:
        """It is refused, also where the configuration has other elements than when the class was written."""
        whole = Doors.trdp_elements
        for kind, said in [
            (Lamp, "doors: Lamp is of dataset 41"),
            (changed({**whole, "speed": "speed"}, {}), "doors: there is no element 'speed', which Other.speed is of"),
            (changed({**whole, "speed": 6}, {}), "doors: there is no element 6, which Other.speed is of"),
            (changed({"state": "state", "class_": "class"}, {}), "doors: Other has no field of element 3"),
            (changed({"state": "state", "element_3": 3}, {}), "doors: Other has no field of element 'class'"),
        ]:
            acts: list[Callable[[], object]] = [
                lambda: DOORS.pack(40, object.__new__(kind)), lambda: DOORS.unpack(40, DATA, into=kind)]
            for act in acts:
                with self.subTest(said), self.assertRaises(DoesNotFit) as caught:
                    act()
                self.assertEqual(str(caught.exception), said)
        with self.assertRaisesRegex(DoesNotFit, "^doors: Other.trdp_classes has no class for element_3$"):
            DOORS.unpack(40, DATA, into=changed(whole, {}))
        with self.assertRaisesRegex(DoesNotFit, "^doors, element 3, item 1: Doors is of dataset 40$"):
            DOORS.pack(40, [0, [], 0, [Lamp(), VALUE], 0, ""])
        unknown = type("Else", (Lamp,), {"trdp_dataset": 99})
        with self.assertRaisesRegex(DoesNotFit, "^dataset 99: it isn't known here, so that Else can't be filled$"):
            DOORS.unpack(0, b"", into=unknown)
        no_class: Any = int
        with self.assertRaisesRegex(TypeError, "^into is <class 'int'>, and no dataclass of a dataset$"):
            DOORS.unpack(40, DATA, into=no_class)
