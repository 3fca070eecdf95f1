"""What a configuration says of datasets, elements, slots and telegrams for programs and people."""
from __future__ import annotations

import pathlib
import tempfile
import unittest
from collections.abc import Callable

from test_values import datasets
from trdp_slot import ConfigFault, Datasets, Element, Slot, TelegramTable, is_count

NAMED = """
[node]
address = "127.0.0.1"
[[slot]]
name = "doors"
control_port = 18000
[[slot]]
[[dataset]]
id = 5002
name = "status of the doors"
element = [
    { type = "UINT8", name = "count" },
    { type = "UINT8", size = 0, name = "state" },
    { type = "UINT32", as = "REAL32", name = "speed", unit = "km/h", scale = 3.6, offset = -1 },
    { type = "UINT64", size = 2, as = "REAL64" },
    { type = 1, as = "ANTIVALENT8", name = "Türe 1/2" },
    { type = "BITSET8" },
]
[[telegram]]
com_id = 2101
dataset = 5002
name = "doors"
cycle_us = 100000
time_us = 500000
reply_us = 5000000
confirm_us = 1000000
[[telegram]]
com_id = 2102
dataset = 0
"""


class Names(unittest.TestCase):
    """The keys that the node ignores."""

    def test_what_is_read(self) -> None:
        """Each key is found at its place, and one that isn't there has its default."""
        of = datasets(NAMED)
        self.assertEqual(of.elements[5002], (
            Element("UINT8", 1, "count"), Element("UINT8", 0, "state"),
            Element("UINT32", 1, "speed", "REAL32", "km/h", 3.6, -1.0), Element("UINT64", 2, None, "REAL64"),
            Element("BITSET8", 1, "Türe 1/2", "ANTIVALENT8"), Element("BITSET8", 1, None, None, "", 1.0, 0.0)))
        self.assertEqual([it for it in range(6) if is_count(of.elements[5002], it)], [0])
        self.assertEqual(of.dataset_names, {5002: "status of the doors"})
        self.assertEqual(of.slot_names, ("doors", None))
        self.assertEqual(of.telegrams, {
            2101: TelegramTable(2101, 5002, "doors", 100000, 500000, 5000000, 1000000), 2102: TelegramTable(2102, 0)})
        self.assertEqual(of.com_ids, {2101: 5002, 2102: 0})
        self.assertEqual(Datasets(of.elements, {7: 5002}).telegrams, {7: TelegramTable(7, 5002)})

    def test_faults(self) -> None:
        """What a key can't be is refused, with its place and the reason."""
        for line, said in [
            ("{ type = 8, name = '' }", "dataset 40, element 0: name is empty"),
            ("{ type = 8 }, { type = 8, name = 5 }",
             "dataset 40, element 1: name is 5, and no text without control characters"),
            ('{ type = 8, unit = "a\\tb" }',
             "dataset 40, element 0: unit is 'a\\tb', and no text without control characters"),
            ("{ type = 8, name = 'a' }, { type = 9 }, { type = 9, name = 'a' }",
             "dataset 40, element 2: an earlier element has the name 'a', too"),
            ("{ type = 10, as = 'REAL' }",
             "dataset 40, element 0: as is 'REAL', and none of REAL32, REAL64, ANTIVALENT8"),
            ("{ type = 10, as = 12 }", "dataset 40, element 0: as is 12, and none of REAL32, REAL64, ANTIVALENT8"),
            ("{ type = 11, as = 'REAL32' }", "dataset 40, element 0: REAL32 stands over UINT32, and not over UINT64"),
            ("{ type = 'BOOL8', as = 'ANTIVALENT8' }",
             "dataset 40, element 0: ANTIVALENT8 stands over BITSET8, and not over BOOL8"),
            ("{ type = 10, as = 'REAL32' }, { type = 8, size = 0 }",
             "dataset 40, element 0: it counts an array, and can't be REAL32"),
            ("{ type = 8, scale = 0.0 }", "dataset 40, element 0: scale is 0"),
            ("{ type = 8, scale = inf }", "dataset 40, element 0: scale is inf, and no finite number"),
            ("{ type = 8, scale = true }", "dataset 40, element 0: scale is True, and no finite number"),
            ("{ type = 8, offset = '1' }", "dataset 40, element 0: offset is '1', and no finite number"),
            (f"{{ type = 8, offset = 1{'0' * 400} }}",
             f"dataset 40, element 0: offset is 1{'0' * 36}..., and no finite number"),
        ]:
            with self.subTest(line[:60]), self.assertRaises(ConfigFault) as caught:
                datasets(f"[[dataset]]\nid = 40\nelement = [{line}]")
            self.assertEqual(str(caught.exception), said)

    def test_faults_of_tables(self) -> None:
        """The same of datasets, slots and telegrams."""
        for text, said in [
            ("[[dataset]]\nname = 'a'", "dataset[0]: id is missing"),
            ("[[dataset]]\nid = 40", "dataset 40 has 0 elements, and not 1 to 256"),
            (f"[[dataset]]\nid = 40\nelement = [{'{}, ' * 257}]", "dataset 40 has 257 elements, and not 1 to 256"),
            ("[[dataset]]\nid = 40\nname = []\nelement = [{ type = 8 }]",
             "dataset 40: name is [], and no text without control characters"),
            ("[[slot]]\n[[slot]]\nname = ''", "slot 1: name is empty"),
            ("[[telegram]]\ndataset = 0", "telegram[0]: com_id is missing"),
            ("[[telegram]]\ncom_id = 7\ndataset = 0\nname = ''", "comId 7: name is empty"),
            ("[[telegram]]\ncom_id = 7\ndataset = 0\ncycle_us = -1",
             "comId 7: cycle_us is -1, and no whole number of 0 to 4294967295"),
        ]:
            with self.subTest(text), self.assertRaises(ConfigFault) as caught:
                datasets(text)
            self.assertEqual(str(caught.exception), said)

    def test_a_fault_names_the_file(self) -> None:
        """Where it is read from a file, also for a slot."""
        with tempfile.TemporaryDirectory() as folder:
            path = pathlib.Path(folder) / "node.toml"
            path.write_text(NAMED.replace('name = "state"', 'name = "count"'))
            reads: list[Callable[[], object]] = [lambda: Datasets.from_toml(path), lambda: Slot(path, 0)]
            for read in reads:
                with self.assertRaises(ConfigFault) as caught:
                    read()
                said = f"{path}: dataset 5002, element 1: an earlier element has the name 'count', too"
                self.assertEqual(str(caught.exception), said)
