"""Values of datasets through a daemon, of each kind and by chance, and which datasets it takes."""
from __future__ import annotations

import pathlib
import random
import subprocess
import tempfile
import unittest
from typing import Any

import testing
from test_values import BASIC
from testing import PD, Daemon, wait_until
from trdp_slot import ConfigFault, Datasets
from two_daemons import DOOR, Case


class Maker:
    """Datasets and values by chance, with their bytes: made here, number by number, not by the code that is tested."""

    WIDTHS = {"BOOL8": 1, "CHAR8": 1, "UTF16": 2, "UINT8": 1, "UINT16": 2, "UINT32": 4, "UINT64": 8, "TIMEDATE32": 4}
    SIGNED = {"INT8": 1, "INT16": 2, "INT32": 4, "INT64": 8}
    KINDS = [*WIDTHS, *SIGNED, "TIMEDATE48", "TIMEDATE64"]
    COUNTS = ["UINT8", "UINT16", "UINT32"]

    def __init__(self, seed: int) -> None:
        self.chance = random.Random(seed)
        self.elements: dict[int, list[tuple[str | int, int]]] = {}
        self.depths: dict[int, int] = {}

    def make(self, count: int) -> None:
        """Makes that many datasets, which nest up to five deep."""
        while len(self.elements) < count:
            number = self.chance.choice([self.chance.randrange(31, 1000), self.chance.randrange(31, 1 << 32)])
            if number not in self.elements:
                elements = self.some_elements()
                below = (self.depths[it] for it, _ in elements if isinstance(it, int))
                self.depths[number] = 1 + max(below, default=0)
                self.elements[number] = elements
                if len(self.some_value(number, 0)[1]) > 300:
                    del self.elements[number], self.depths[number]

    def some_elements(self) -> list[tuple[str | int, int]]:
        elements: list[tuple[str | int, int]] = []
        deep = [it for it, depth in self.depths.items() if depth < 5]
        for _ in range(self.chance.randrange(1, 5)):
            is_deep = deep and self.chance.randrange(3) == 0
            kind: str | int = self.chance.choice(deep) if is_deep else self.chance.choice(self.KINDS)
            size = self.chance.choice([1, 1, 1, 0, 2, 3, self.chance.randrange(4, 12)])
            if size == 0:
                elements.append((self.chance.choice(self.COUNTS), 1))
            elements.append((kind, size))
        return elements

    def toml(self) -> str:
        """The datasets in TOML."""
        lines = []
        for number, elements in self.elements.items():
            of = ", ".join(f"{{ type = {kind!r}, size = {size} }}" for kind, size in elements)
            lines.append(f"[[dataset]]\nid = {number}\nelement = [{of}]\n")
        return "".join(lines)

    def value(self, number: int) -> tuple[Any, bytes]:
        """A value that process data carries, and its bytes."""
        for most in (6, 3, 2, 1, 0):
            value, data = self.some_value(number, most)
            if len(data) <= 1432:
                break
        return value, data

    def some_value(self, number: int, most: int) -> tuple[list[Any], bytes]:
        value: list[Any] = []
        data = b""
        elements = self.elements[number]
        entry: Any
        for index, (kind, size) in enumerate(elements):
            if index + 1 < len(elements) and elements[index + 1][1] == 0:
                entry, part = self.number(self.chance.randint(0, most), self.WIDTHS[str(kind)])
            elif size == 1:
                entry, part = self.item(kind, most)
            else:
                items = [self.item(kind, most) for _ in range(size or value[-1])]
                entry, part = [it for it, _ in items], b"".join(it for _, it in items)
            value.append(entry)
            data += part
        return value, data

    @staticmethod
    def number(number: int, width: int) -> tuple[int, bytes]:
        return number, number.to_bytes(width, "big")

    def item(self, kind: str | int, most: int) -> tuple[Any, bytes]:
        if isinstance(kind, int):
            return self.some_value(kind, most)
        if kind in self.SIGNED:
            half = 1 << 8 * self.SIGNED[kind] - 1
            one = self.chance.choice([-half, half - 1, -1, 0, self.chance.randrange(-half, half)])
            return one, one.to_bytes(self.SIGNED[kind], "big", signed=True)
        if kind in self.WIDTHS:
            all_of = 1 << 8 * self.WIDTHS[kind]
            return self.number(self.chance.choice([0, all_of - 1, self.chance.randrange(all_of)]), self.WIDTHS[kind])
        first, first_bytes = self.item("UINT32", most)
        second, second_bytes = self.item("UINT16" if kind == "TIMEDATE48" else "UINT32", most)
        return (first, second), first_bytes + second_bytes


class Values(Case):
    """Values of datasets go through a publisher and a subscription of a real daemon, and come back equal."""

    def setUp(self) -> None:
        self.daemons: list[Daemon] = []

    def go_through(self, datasets: str, rows: list[tuple[int, Any, bytes]]) -> None:
        """Has each value sent by the node to itself, and looks at what it shows."""
        slot = self.daemon(DOOR, datasets)
        place = f"{DOOR}:{PD}"
        requester = slot.openpull(8, place, reply_com_id=7)
        for dataset, value, data in rows:
            publisher = slot.publish(7, place, dataset=dataset)
            subscription = slot.subscribe(7, dataset=dataset)
            slot.put(publisher, value)
            slot.pull(requester)
            wait_until(lambda: slot.get(subscription).state == "Valid")
            self.assertEqual(slot.get(subscription).value, value)
            self.assertEqual(slot.get(subscription.number).value, data)
            slot.unpublish(publisher)
            slot.unsubscribe(subscription)
        self.daemons.pop().end()

    def test_each_type_and_kind_of_array(self) -> None:
        text, rows, number = "", [], 100
        for kind, value, data in BASIC:
            for elements, whole, wire in [
                ("{{ type = '{0}' }}", [value], data), ("{{ type = '{0}', size = 3 }}", [[value] * 3], data * 3),
                ("{{ type = 8 }}, {{ type = '{0}', size = 0 }}", [2, [value] * 2], b"\x02" + data * 2),
                ("{{ type = 9 }}, {{ type = '{0}', size = 0 }}", [1, [value]], b"\0\x01" + data),
                ("{{ type = 10 }}, {{ type = '{0}', size = 0 }}", [0, []], bytes(4)),
            ]:
                text += f"[[dataset]]\nid = {number}\nelement = [{elements.format(kind)}]\n"
                rows.append((number, whole, wire))
                number += 1
        self.go_through(text, rows)

    def test_nesting_of_five_and_the_longest(self) -> None:
        text = "".join(f"[[dataset]]\nid = {it}\nelement = [{{ type = 8 }}, {{ type = {it + 1}, size = 0 }}]\n"
                       for it in range(40, 44))
        text += "[[dataset]]\nid = 44\nelement = [{ type = 8 }, { type = 11, size = 0 }]\n"
        text += "[[dataset]]\nid = 45\nelement = [{ type = 8, size = 1432 }]\n"
        five, wire = [2, [2**64 - 1, 1]], b"\x02" + b"\xff" * 8 + bytes(7) + b"\x01"
        for _ in range(4):
            five, wire = [2, [five, five]], b"\x02" + wire * 2
        longest = [[it % 256 for it in range(1432)]]
        self.go_through(text, [(40, five, wire), (45, longest, bytes(longest[0]))])

    def test_2000_datasets_and_values_by_chance(self) -> None:
        deepest = 0
        for seed in range(8):
            maker = Maker(seed)
            maker.make(250)
            deepest = max(deepest, *maker.depths.values())
            self.go_through(maker.toml(), [(number, *maker.value(number)) for number in maker.elements])
        self.assertEqual(deepest, 5)


class Configurations(unittest.TestCase):
    """What the node takes, this takes, and what it doesn't, this refuses."""

    def test_limits(self) -> None:
        # rule: dataset.limit: 256 elements are taken, and 257 rejected
        # rule: dataset.size: 65,388 bytes are taken, and 65,389 rejected
        # rule: dataset.counted: a UINT32 counts, and a UINT64 does not
        # rule: dataset.real: REAL32 is rejected
        for text, is_taken in [
            ("{ type = 8, size = 65388 }", True), ("{ type = 8, size = 65388 }, { type = 8 }", False),
            ("{ type = 'REAL32' }", False), ("{ type = 17 }", False), ("{ type = 8, size = 0 }", False),
            ("{ type = 10 }, { type = 8, size = 0 }", True), ("{ type = 11 }, { type = 8, size = 0 }", False),
            ("{ type = 1000 }", False), ("{ type = 'BITSET8' }", True), (", ".join(["{ type = 8 }"] * 257), False),
            (", ".join(["{ type = 8 }"] * 256), True),
        ]:
            config = f'[node]\naddress = "{DOOR}"\n[[slot]]\n[[dataset]]\nid = 1000\nelement = [{text}]\n'
            with tempfile.TemporaryDirectory() as folder, self.subTest(text[:40]):
                path = pathlib.Path(folder) / "node.toml"
                path.write_text(config)
                ran = subprocess.run([testing.PROGRAM, "run", str(path)], input=b"", capture_output=True)
                self.assertEqual(ran.returncode, 0 if is_taken else 1, ran.stderr)
                if is_taken:
                    Datasets.from_toml(path)
                else:
                    self.assertRaises(ConfigFault, Datasets.from_toml, path)
