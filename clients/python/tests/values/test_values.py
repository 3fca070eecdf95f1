"""Values of datasets, configurations and telegrams, without a daemon."""
from __future__ import annotations

import struct
import tomllib
import unittest
import uuid
import zlib
from typing import Any

import testing
import trdp_lua
import trdp_slot
import trdp_telegram
from trdp_slot import ConfigFault, Datasets, DoesNotFit


def datasets(text: str) -> Datasets:
    """The datasets of a text in TOML."""
    return Datasets.from_tables(tomllib.loads(text))


def one(element: str) -> Datasets:
    """Dataset 1000 of these elements."""
    return datasets(f"[[dataset]]\nid = 1000\nelement = [{element}]")


def nested(depth: int) -> Datasets:
    """Datasets that nest so deep, of which 1000 is the outermost."""
    text = "".join(f"[[dataset]]\nid = {1000 + i}\nelement = [{{ type = {1001 + i} }}]\n" for i in range(depth - 1))
    return datasets(text + f"[[dataset]]\nid = {999 + depth}\nelement = [{{ type = 'UINT8' }}]\n")


# Type, value, bytes by hand or by struct.
BASIC = [
    ("BOOL8", 1, b"\x01"), ("BOOL8", 255, b"\xff"), ("BITSET8", 0x81, b"\x81"), ("CHAR8", 65, b"A"),
    ("UTF16", 0x20AC, b"\x20\xac"), ("INT8", -128, b"\x80"), ("INT8", 127, b"\x7f"), ("INT16", -2, b"\xff\xfe"),
    ("INT16", 32767, b"\x7f\xff"), ("INT32", -2147483648, b"\x80\0\0\0"), ("INT32", 1, b"\0\0\0\x01"),
    ("INT64", -1, b"\xff" * 8), ("INT64", 2**63 - 1, b"\x7f" + b"\xff" * 7), ("UINT8", 200, b"\xc8"),
    ("UINT16", 0x1234, b"\x12\x34"), ("UINT32", 0x12345678, b"\x12\x34\x56\x78"), ("UINT64", 2**64 - 1, b"\xff" * 8),
    ("UINT64", 2**63, b"\x80" + bytes(7)), ("TIMEDATE32", 2**32 - 1, b"\xff" * 4),
    ("TIMEDATE48", (1, 2), struct.pack(">IH", 1, 2)), ("TIMEDATE48", (2**32 - 1, 65535), b"\xff" * 6),
    ("TIMEDATE64", (3, 4), struct.pack(">II", 3, 4)), ("TIMEDATE64", (2**32 - 1, 2**32 - 1), b"\xff" * 8),
]
# Type, and values that aren't one.
OTHERS: list[tuple[str, list[object]]] = [
    ("BOOL8", [256, -1, 1.0, "A", None, [1]]), ("CHAR8", ["A", 256]), ("UTF16", [65536]), ("INT8", [128, -129]),
    ("INT16", [32768, -32769]), ("INT32", [2**31, -2**31 - 1]), ("INT64", [2**63, -2**63 - 1]), ("UINT8", [256, -1]),
    ("UINT16", [65536]), ("UINT32", [2**32]), ("UINT64", [2**64, -1]), ("TIMEDATE32", [2**32, (1, 2)]),
    ("TIMEDATE48", [1, (1,), (1, 65536), (2**32, 0), (-1, 0), (1, 2, 3), ("a", 1)]),
    ("TIMEDATE64", [1, (0, 2**32), (2**32, 0), (0, 1.5)]),
]
NUMBERS = {1: "BOOL8", 2: "CHAR8", 3: "UTF16", 4: "INT8", 5: "INT16", 6: "INT32", 7: "INT64", 8: "UINT8", 9: "UINT16",
           10: "UINT32", 11: "UINT64", 14: "TIMEDATE32", 15: "TIMEDATE48", 16: "TIMEDATE64"}


class Values(unittest.TestCase):
    """Values and their bytes."""

    def test_each_type(self) -> None:
        for kind, value, data in BASIC:
            with self.subTest(kind, value=value):
                of = one(f"{{ type = '{kind}' }}")
                self.assertEqual(of.pack(1000, [value]), data)
                self.assertEqual(of.unpack(1000, data), [value])

    def test_types_have_numbers(self) -> None:
        for number, name in NUMBERS.items():
            self.assertEqual(one(f"{{ type = {number} }}").elements, one(f"{{ type = '{name}' }}").elements)
        # Both have the number 1; a file that has the name keeps it.
        self.assertEqual(one("{ type = 'BITSET8' }").elements[1000][0].type, "BITSET8")

    def test_what_is_no_value_is_refused_with_its_place(self) -> None:
        for kind, values in OTHERS:
            for value in values:
                with self.subTest(kind, value=value):
                    with self.assertRaisesRegex(DoesNotFit, "^dataset 1000, element 1: .*" + kind):
                        one(f"{{ type = 'UINT8' }}, {{ type = '{kind}' }}").pack(1000, [0, value])

    def test_arrays_of_each_type(self) -> None:
        for kind, value, data in BASIC:
            for count in (2, 3, 200):
                of = one(f"{{ type = '{kind}', size = {count} }}")
                self.assertEqual(of.pack(1000, [[value] * count]), data * count)
                self.assertEqual(of.unpack(1000, data * count), [[value] * count])
                with self.assertRaisesRegex(DoesNotFit, f"element 0: the list has 1 entries, and not {count}"):
                    of.pack(1000, [[value]])

    def test_counted_arrays(self) -> None:
        for count, width in (("UINT8", 1), ("UINT16", 2), ("UINT32", 4)):
            for kind, value, data in BASIC:
                of = one(f"{{ type = '{count}' }}, {{ type = '{kind}', size = 0 }}")
                for many in (0, 1, 7):
                    wire = many.to_bytes(width, "big") + data * many
                    self.assertEqual(of.pack(1000, [many, [value] * many]), wire)
                    self.assertEqual(of.unpack(1000, wire), [many, [value] * many])
        of = one("{ type = 8 }, { type = 8, size = 0 }")
        with self.assertRaisesRegex(DoesNotFit, "^dataset 1000, element 1: the list has 2 entries, and not 3$"):
            of.pack(1000, [3, [1, 2]])
        with self.assertRaisesRegex(DoesNotFit, "^dataset 1000, element 1: 1 bytes are left, and 2 of UINT8 have 2$"):
            of.unpack(1000, b"\x02\x01")

    def test_a_count_beyond_the_bytes_costs_nothing(self) -> None:
        of = datasets("[[dataset]]\nid = 40\nelement = [{ type = 8 }]\n"
                      "[[dataset]]\nid = 41\nelement = [{ type = 10 }, { type = 40, size = 0 }]")
        with self.assertRaises(DoesNotFit):
            of.unpack(41, b"\xff\xff\xff\xff\x01")

    def test_examples_of_the_docs(self) -> None:
        of = Datasets.from_toml(testing.TOP / "examples/control/door.toml")
        self.assertEqual(of.pack(5002, [4, [0, 0, 0, 0], 0]), bytes.fromhex("04000000000000"))
        self.assertEqual(of.unpack(5002, bytes.fromhex("04020200000000")), [4, [2, 2, 0, 0], 0])
        of = Datasets.from_toml(testing.TOP / "examples/node.toml")
        self.assertEqual(of.pack(1001, [2, [1, 2]]), bytes.fromhex("0200010002"))
        self.assertEqual(of.pack(1002, [-2, (3, 4), [1, [5]]]), bytes.fromhex("fffe" "000000030004" "010005"))

    def test_nesting(self) -> None:
        value: object = 7
        way = "dataset 1000"
        for _ in range(5):
            value, way = [value], way + ", element 0"
        self.assertEqual(nested(5).pack(1000, value), b"\x07")
        self.assertEqual(nested(5).unpack(1000, b"\x07"), value)
        with self.assertRaisesRegex(DoesNotFit, f"^{way}: 'x' is no UINT8, 0 to 255$"):
            nested(5).pack(1000, [[[[["x"]]]]])
        with self.assertRaisesRegex(ConfigFault, "deeper than 5"):
            nested(6)

    def test_the_place_in_an_array_of_datasets(self) -> None:
        of = datasets("[[dataset]]\nid = 40\nelement = [{ type = 8 }, { type = 9, size = 2 }]\n"
                      "[[dataset]]\nid = 41\nelement = [{ type = 8 }, { type = 40, size = 0 }]")
        self.assertEqual(of.pack(41, [2, [[1, [2, 3]], [4, [5, 6]]]]), bytes.fromhex("02 01 0002 0003 04 0005 0006"))
        place = "dataset 41, element 1, item 1, element 1, item 0"
        with self.assertRaisesRegex(DoesNotFit, f"^{place}: 65536 is no UINT16"):
            of.pack(41, [2, [[1, [2, 3]], [4, [65536, 6]]]])
        with self.assertRaisesRegex(DoesNotFit, "^dataset 41, element 1, item 0: the list has 1 entries, and not 2"):
            of.pack(41, [1, [[1]]])
        with self.assertRaisesRegex(DoesNotFit, "^dataset 41: 5 is no list"):
            of.pack(41, 5)

    def test_limits(self) -> None:
        of = one("{ type = 9 }, { type = 8, size = 0 }")
        self.assertEqual(len(of.pack(1000, [65386, [0] * 65386])), 65388)
        with self.assertRaisesRegex(DoesNotFit, "has 65389 bytes, and at most 65388"):
            of.pack(1000, [65387, [0] * 65387])
        self.assertEqual(len(of.pack(1000, [1430, [0] * 1430], trdp_slot.PD_MOST)), 1432)
        with self.assertRaisesRegex(DoesNotFit, "has 1433 bytes, and at most 1432"):
            of.pack(1000, [1431, [0] * 1431], trdp_slot.PD_MOST)
        with self.assertRaisesRegex(DoesNotFit, "1 bytes are left over"):
            of.unpack(1000, b"\0\0\0")
        with self.assertRaises(DoesNotFit):
            of.unpack(1000, b"\0")

    def test_zero_values(self) -> None:
        of = Datasets.from_toml(testing.TOP / "examples/node.toml")
        self.assertEqual(of.zero(1002), [0, (0, 0), [0, []]])
        self.assertEqual(of.zero_size(1002), 2 + 6 + 1)
        self.assertEqual(of.zero(0), b"")

    def test_dataset_0_is_bytes(self) -> None:
        of = Datasets({})
        self.assertEqual(of.pack(0, b"\x01\x02"), b"\x01\x02")
        self.assertEqual(of.unpack(0, b"\x01\x02"), b"\x01\x02")
        with self.assertRaisesRegex(DoesNotFit, "^dataset 0"):
            of.pack(0, [1])

    def test_damaged_bytes_give_a_value_or_a_fault(self) -> None:
        of = Datasets.from_toml(testing.TOP / "examples/node.toml")
        whole = of.pack(1002, [-2, (3, 4), [3, [5, 6, 7]]])
        for end in range(len(whole)):
            with self.assertRaises(DoesNotFit):
                of.unpack(1002, whole[:end])
        for index in range(len(whole)):
            for bit in range(8):
                damaged = whole[:index] + bytes([whole[index] ^ 1 << bit]) + whole[index + 1:]
                try:
                    self.assertEqual(of.pack(1002, of.unpack(1002, damaged)), damaged)
                except DoesNotFit:
                    self.assertEqual(index, 8)  # the count


class Configurations(unittest.TestCase):
    """What is no configuration."""

    def test_faults(self) -> None:
        for text, fault in [
            ("{ type = 'REAL32' }", 'takes no REAL32: write type = "UINT32", as = "REAL32"'),
            ("{ type = 13 }", 'takes no 13: write type = "UINT64", as = "REAL64"'),
            ("{ type = 'INT7' }", "INT7"),
            ("{ type = 17 }", "17"), ("{ size = 2 }", "no name or number"), ("{ type = true }", "no name or number"),
            ("{ type = 1001 }", "no dataset 1001"), ("{ type = 8, size = 65536 }", "size is 65536"),
            ("{ type = 8, size = 0 }", "before it counts it"), ("", "0 elements"), ("{ type = 1000 }", "deeper"),
            ("{ type = 8, size = 2 }, { type = 8, size = 0 }", "before it counts it"),
            ("{ type = 2 }, { type = 8, size = 0 }", "before it counts it"),
            (", ".join(["{ type = 8 }"] * 257), "257"),
            ("{ type = 8, size = 65389 }", "more than 65388"),
        ]:
            with self.subTest(text[:40]):
                with self.assertRaisesRegex(ConfigFault, fault):
                    one(text)
        table = "[[dataset]]\nid = 1000\nelement = [{ type = 8 }]\n"
        with self.assertRaisesRegex(ConfigFault, "twice"):
            datasets(table * 2)
        with self.assertRaisesRegex(ConfigFault, "id is 30"):
            datasets(table.replace("1000", "30"))
        with self.assertRaisesRegex(ConfigFault, "comId 7: there is no dataset 31"):
            datasets(table + "[[telegram]]\ncom_id = 7\ndataset = 31\n")
        with self.assertRaisesRegex(ConfigFault, "comId 7 is there twice"):
            datasets(table + "[[telegram]]\ncom_id = 7\ndataset = 0\n" * 2)
        self.assertEqual(datasets(table + "[[telegram]]\ncom_id = 7\ndataset = 1000\n").com_ids, {7: 1000})

    def test_control_places(self) -> None:
        node: dict[str, Any] = {"node": {"address": "10.0.0.1", "spare_control_ports": [0, 18002]},
                                "slot": [{"control_port": 18000}, {}]}
        self.assertEqual(trdp_slot.control_place(node, 0), ("10.0.0.1", 18000))
        self.assertEqual(trdp_slot.control_place(node, 3), ("10.0.0.1", 18002))
        for slot in (1, 2, 4, -1):
            with self.assertRaisesRegex(ConfigFault, f"slot {slot} has no control port"):
                trdp_slot.control_place(node, slot)
        node["node"]["control_address"] = "127.0.0.1"
        self.assertEqual(trdp_slot.control_place(node, 0), ("127.0.0.1", 18000))


def docs_telegram(kind: bytes, counter: int, com_id: int, payload: bytes, etb: int = 0, op_trn: int = 0,
                  reply_com_id: int = 0, reply_address: int = 0) -> bytes:
    """By the table of bytes in docs/SCRIPT.md."""
    head = struct.pack(">IH2s7I", counter, 0x0100, kind, com_id, etb, op_trn, len(payload), 0, reply_com_id,
                       reply_address)
    return head + struct.pack("<I", zlib.crc32(head)) + payload + bytes(-len(payload) % 4)


def docs_message(kind: bytes, com_id: int, payload: bytes, session: int = 0, status: int = 0, time: int = 0,
                 source_uri: bytes = b"", dest_uri: bytes = b"", etb: int = 0, op_trn: int = 0) -> bytes:
    """By the table of bytes in docs/SCRIPT.md."""
    head = struct.pack(">IH2s4Ii", 0, 0x0100, kind, com_id, etb, op_trn, len(payload), status)
    head += session.to_bytes(16, "big") + struct.pack(">I", time)
    head += source_uri.ljust(32, b"\0") + dest_uri.ljust(32, b"\0")
    return head + struct.pack("<I", zlib.crc32(head)) + payload + bytes(-len(payload) % 4)


class Telegrams(unittest.TestCase):
    """Telegrams and their bytes."""

    def test_the_telegram_of_the_docs(self) -> None:
        wire = bytes.fromhex("000000000100506400000064000000000000000000000002"
                             "000000000000000000000000ec179c940a0b0000")
        telegram = trdp_telegram.Telegram("Pd", 100, payload=b"\x0a\x0b")
        self.assertEqual(telegram.write(), wire)
        self.assertEqual(trdp_telegram.read_telegram(wire, False), telegram)

    def test_fields(self) -> None:
        wire = docs_telegram(b"Pr", 7, 100, b"abc", 17, 4, 200, 0x0A000007)
        telegram = trdp_telegram.Telegram("Pr", 100, 7, 17, 4, b"abc", 200, "10.0.0.7")
        self.assertEqual(telegram.write(), wire)
        self.assertEqual(trdp_telegram.read_telegram(wire, False), telegram)
        wire = docs_message(b"Mq", 300, b"\x0d", 5, -9, 1000000, b"door", b"car", 17, 4)
        telegram = trdp_telegram.Telegram("Mq", 300, 0, 17, 4, b"\x0d", status=-9, session=uuid.UUID(int=5),
                                          time_us=1000000, source_uri=b"door", dest_uri=b"car")
        self.assertEqual(telegram.write(), wire)
        self.assertEqual(trdp_telegram.read_telegram(wire, True), telegram)

    def test_faults(self) -> None:
        good = docs_telegram(b"Pd", 0, 100, b"ab")

        def again(at: int, data: bytes) -> bytes:
            head = good[:at] + data + good[at + len(data):36]
            return head + struct.pack("<I", zlib.crc32(head)) + good[40:]

        for wire, name in [
            (good[:39], "Short"), (good + bytes(1433 - 4), "TooLong"), (good[:8] + b"\1" + good[9:], "Fcs"),
            (again(4, b"\2"), "Version"), (again(6, b"Mn"), "Kind"), (again(20, b"\0\0\0\5"), "Length"),
        ]:
            with self.assertRaises(trdp_telegram.NoTelegram) as caught:
                trdp_telegram.read_telegram(wire, False)
            self.assertEqual(caught.exception.name, name)
        self.assertEqual(trdp_telegram.read_telegram(again(5, b"\x63"), False).payload, b"ab")
        for telegram in [
            trdp_telegram.Telegram("Pd", -1), trdp_telegram.Telegram("Px", 1),
            trdp_telegram.Telegram("Pd", 1, payload=bytes(1433)),
            trdp_telegram.Telegram("Mn", 1, source_uri=bytes(33)),
            trdp_telegram.Telegram("Mn", 1, payload=bytes(65389)),
        ]:
            with self.assertRaises(ValueError):
                telegram.write()

    def test_the_table_of_the_dissector(self) -> None:
        text = trdp_lua.lua_table(datasets(
            "[[dataset]]\nid = 40\nelement = [{ type = 8 }, { type = 'BITSET8', size = 0 }]\n"
            "[[dataset]]\nid = 41\nelement = [{ type = 40, size = 3 }]\n[[telegram]]\ncom_id = 7\ndataset = 41\n"))
        self.assertTrue(text.endswith(
            '_G.trdp_datasets = {\n    com_ids = {\n        [7] = 41,\n    },\n    datasets = {\n'
            '        [40] = { { "UINT8", 1 }, { "BOOL8", 0 } },\n        [41] = { { 40, 3 } },\n    },\n}\n'))
