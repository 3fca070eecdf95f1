"""Values by names: dicts, floats, bools, texts and times, and their bytes."""
from __future__ import annotations

import collections
import contextlib
import datetime
import fractions
import math
import pickle
import time
import types
import unittest
import uuid
from collections.abc import Callable, Iterator
from typing import Any

from test_values import datasets
from trdp_slot import Asked, Datasets, DoesNotFit, Element, Handle, Notified, Replied, Silent, TimeDate48, TimeDate64

DOORS = datasets("""
[[dataset]]
id = 40
name = "doors"
element = [
    { type = 8 },
    { type = 8, size = 0, name = "state" },
    { type = 10, as = "REAL32", name = "speed" },
    { type = 41, name = "lamp" },
    { type = 9, name = "count" },
    { type = 41, size = 0, name = "lamps" },
]
[[dataset]]
id = 41
element = [{ type = "BITSET8", as = "ANTIVALENT8", name = "on" }, { type = "BOOL8", size = 2, name = "broken" }]
[[dataset]]
id = 42
element = [{ type = 8, name = "x" }, { type = 9 }, { type = 41, name = "lamp" }]
[[telegram]]
com_id = 300
dataset = 41
[[telegram]]
com_id = 301
dataset = 0
""").by_names()
VALUE: dict[str, Any] = {"state": [0, 2], "speed": 1.5, "lamp": {"on": True, "broken": [False, True]}, "count": 1,
                         "lamps": [{"on": False, "broken": [True, 7]}]}
LISTS = [2, [0, 2], 0x3FC00000, [2, [0, 1]], 1, [[1, [1, 7]]]]
DATA = bytes.fromhex("02" "0002" "3fc00000" "02" "0001" "0001" "01" "0107")

# An element; a value by names, the same in a list, and the bytes by hand.
ITEMS: list[tuple[str, Any, Any, str]] = [
    ("type = 10, as = 'REAL32'", 0.5, 0x3F000000, "3f000000"),
    ("type = 10, as = 'REAL32'", -math.inf, 0xFF800000, "ff800000"),
    ("type = 10, as = 'REAL32', size = 2", [1.0, -2.0], [0x3F800000, 0xC0000000], "3f800000c0000000"),
    ("type = 11, as = 'REAL64'", 0.1, 0x3FB999999999999A, "3fb999999999999a"),
    ("type = 11, as = 'REAL64', size = 2", [2.0, math.inf], [2**62, 0x7FF << 52], "40000000000000007ff0000000000000"),
    ("type = 'BOOL8'", True, 1, "01"), ("type = 'BOOL8'", 2, 2, "02"),
    ("type = 1, size = 2", [False, 255], [0, 255], "00ff"),
    ("type = 'BITSET8'", 1, 1, "01"), ("type = 'BITSET8', size = 2", [0, 1], [0, 1], "0001"),
    ("type = 1, as = 'ANTIVALENT8'", False, 1, "01"), ("type = 'BITSET8', as = 'ANTIVALENT8'", True, 2, "02"),
    ("type = 'BITSET8', as = 'ANTIVALENT8', size = 3", [0, True, 3], [0, 2, 3], "000203"),
    ("type = 'CHAR8', size = 5", "Tür", [0x54, 0xC3, 0xBC, 0x72, 0], "54c3bc7200"),
    ("type = 'CHAR8', size = 2", [0xC3, 0x41], [0xC3, 0x41], "c341"), ("type = 'CHAR8'", 65, 65, "41"),
    ("type = 'UTF16', size = 4", "€😀", [0x20AC, 0xD83D, 0xDE00, 0], "20acd83dde000000"),
    ("type = 'UTF16', size = 2", [0xD83D, 0x41], [0xD83D, 0x41], "d83d0041"),
    ("type = 'TIMEDATE32'", 1, 1, "00000001"), ("type = 'TIMEDATE48'", (1, 2), (1, 2), "000000010002"),
    ("type = 'TIMEDATE64', size = 2", [(1, 2), (3, 4)], [(1, 2), (3, 4)], "00000001000000020000000300000004"),
]
# An element of the name `it`, and a value that is none; what is said of that.
MISFITS: list[tuple[str, Any, str]] = [
    ("type = 10, as = 'REAL32'", 1e39, "1e+39 is beyond REAL32"),
    ("type = 10, as = 'REAL32'", 10**400, "1000000000000000000000000000000000000... is beyond REAL32"),
    ("type = 11, as = 'REAL64'", 10**400, "1000000000000000000000000000000000000... is beyond REAL64"),
    ("type = 10, as = 'REAL32'", "1", "'1' is no REAL32"), ("type = 10, as = 'REAL32'", True, "True is no REAL32"),
    ("type = 10, as = 'REAL32', size = 2", [0.0, -1e39], "-1e+39 is beyond REAL32"),
    ("type = 'BITSET8', as = 'ANTIVALENT8'", 256, "256 is no ANTIVALENT8, 0 to 255"),
    ("type = 'CHAR8', size = 2", "Tür", "'Tür' has 4 bytes, and at most 2 are there"),
    ("type = 'UTF16', size = 2", "😀!", "'😀!' has 6 bytes, and at most 4 are there"),
    ("type = 'CHAR8', size = 3", "a\0", "'a\\x00' has a zero, where a text ends"),
    ("type = 'CHAR8', size = 3", "\udc41", "'\\udc41' is no text of CHAR8"),
    ("type = 'CHAR8', size = 3", b"abc", "b'abc' is no list or text"),
    ("type = 'CHAR8'", "A", "'A' is no CHAR8, 0 to 255"),
    ("type = 'UINT8', size = 2", "ab", "'ab' is no list"),
]


# What a program may have where it means something else.
ODD: list[Any] = [None, "x", "\ud800", b"x", 1.5, math.nan, -1, 10**400, 1j, True, [], [[]], {}, {"on": 1}, (1, 2), {1},
                  range(2), object(), int]


def spoiled(value: Any, odd: Any) -> Iterator[Any]:
    """Copies of a value, in each of which this is at another place, at any depth."""
    yield odd
    if isinstance(value, dict):
        yield from ({**value, key: it} for key in value for it in spoiled(value[key], odd))
    elif isinstance(value, list):
        yield from ([*value[:at], it, *value[at + 1:]] for at in range(len(value)) for it in spoiled(value[at], odd))


class ByNames(unittest.TestCase):
    """Dicts by names, at any depth."""

    def test_dicts_and_lists_have_the_same_bytes(self) -> None:
        """A dict is packed as the list is, also within it; by names it comes back, and else the list."""
        of = Datasets(DOORS.elements)
        without = {key: it for key, it in VALUE.items() if key != "count"}
        lists_within = {**VALUE, "lamp": [2, [0, 1]], "lamps": ({"on": 1, "broken": (True, 7)},)}
        dicts_within = [*LISTS[:3], VALUE["lamp"], 1, VALUE["lamps"]]
        for value in (LISTS, VALUE, without, lists_within, dicts_within, types.MappingProxyType(VALUE)):
            self.assertEqual(DOORS.pack(40, value), DATA)
        self.assertEqual(DOORS.unpack(40, DATA), VALUE)
        self.assertEqual(of.unpack(40, DATA), LISTS)
        self.assertEqual(DOORS.zero(41), {"on": 0, "broken": [False, False]})
        self.assertEqual(pickle.loads(pickle.dumps(DOORS)).unpack(40, DATA), VALUE)

    def test_each_type(self) -> None:
        """A value is what its numbers mean, and in a list without names it is the numbers."""
        for element, named, raw, data in ITEMS:
            with self.subTest(element, value=named):
                of = datasets(f"[[dataset]]\nid = 40\nelement = [{{ {element}, name = 'it' }}]")
                for value in ({"it": named}, [named], [raw]):
                    self.assertEqual(of.pack(40, value).hex(), data)
                self.assertEqual(repr(of.unpack(40, bytes.fromhex(data))), repr([raw]))
                self.assertEqual(repr(of.by_names().unpack(40, bytes.fromhex(data))), repr({"it": named}))

    def test_a_whole_number_at_a_real(self) -> None:
        """In a list it is the bits, which unpack returned, and by names it is the number."""
        of = datasets("[[dataset]]\nid = 40\nelement = [{ type = 10, as = 'REAL32', name = 'it', size = 2 }]")
        self.assertEqual(of.pack(40, [[1, 2.0]]).hex(), "0000000140000000")
        self.assertEqual(of.pack(40, {"it": [1, 2.0]}).hex(), "3f80000040000000")

    def test_what_becomes_a_float(self) -> None:
        """A number of another class is taken as Python makes a float of it, also in a list."""
        of = datasets("[[dataset]]\nid = 40\nelement = [{ type = 10, as = 'REAL32', name = 'it', size = 2 }]")
        for value in ({"it": [fractions.Fraction(1, 2), 2]}, [[fractions.Fraction(1, 2), 2.0]]):
            self.assertEqual(of.pack(40, value).hex(), "3f00000040000000")

    def test_no_number_at_a_real(self) -> None:
        """A NaN is packed; a signalling one may come back as another one by names, and not in a list."""
        of = datasets("[[dataset]]\nid = 40\nelement = [{ type = 10, as = 'REAL32', name = 'it' }]")
        self.assertEqual(of.pack(40, {"it": math.nan}).hex(), "7fc00000")
        signalling = bytes.fromhex("7fa00001")
        self.assertTrue(math.isnan(of.by_names().unpack(40, signalling)["it"]))
        self.assertEqual(of.pack(40, of.unpack(40, signalling)), signalling)

    def test_a_text_of_a_counted_array(self) -> None:
        """Its count is that of its bytes or units, and one that is there may be higher."""
        of = datasets("[[dataset]]\nid = 40\nelement = [{ type = 8, name = 'count' }, "
                      "{ type = 'UTF16', size = 0, name = 'text' }]").by_names()
        self.assertEqual(of.pack(40, {"text": "ab"}).hex(), "0200610062")
        self.assertEqual(of.pack(40, {"text": "ab", "count": 3}).hex(), "03006100620000")
        self.assertEqual(of.pack(40, [3, "ab"]).hex(), "03006100620000")
        self.assertEqual(of.unpack(40, bytes.fromhex("03006100000062")), {"count": 3, "text": "a"})
        with self.assertRaisesRegex(DoesNotFit, "^dataset 40, text: 'ab' has 4 bytes, and at most 2 are there$"):
            of.pack(40, {"text": "ab", "count": 1})
        of = datasets("[[dataset]]\nid = 40\nelement = [{ type = 10 }, { type = 2, size = 0, name = 'text' }]")
        with self.assertRaisesRegex(DoesNotFit, "^dataset 40, text: it has 4294967295 bytes, and at most 65388 are "):
            of.pack(40, [0xFFFFFFFF, "ab"])

    def test_a_dataset_without_all_names_is_a_list(self) -> None:
        """Its value by names is a list, in which a dataset that has all names is a dict."""
        value = [1, 2, {"on": True, "broken": [False, True]}]
        self.assertEqual(DOORS.unpack(42, bytes.fromhex("01" "0002" "020001")), value)
        self.assertEqual(DOORS.pack(42, value).hex(), "010002020001")


class Faults(unittest.TestCase):
    """What is no value by names is refused, with the way to it."""

    def check(self, number: int, value: Any, said: str) -> None:
        """Looks at what is said of a value of DOORS."""
        with self.subTest(said), self.assertRaises(DoesNotFit) as caught:
            DOORS.pack(number, value)
        self.assertEqual(str(caught.exception), said)

    def test_each_type(self) -> None:
        """Of each type there is a value that is none."""
        for element, value, said in MISFITS:
            of = datasets(f"[[dataset]]\nid = 40\nname = 'a'\nelement = [{{ {element}, name = 'it' }}]")
            with self.subTest(said), self.assertRaises(DoesNotFit) as caught:
                of.pack(40, {"it": value})
            at = "a.it[1]" if isinstance(value, list) else "a.it"
            self.assertEqual(str(caught.exception), f"{at}: {said}")

    def test_whatever_a_value_has(self) -> None:
        """It is packed or refused, and nothing of it is changed."""
        for odd in ODD:
            for value in [*spoiled(VALUE, odd), *spoiled(LISTS, odd)]:
                shown = repr(value)
                with contextlib.suppress(DoesNotFit):
                    self.assertIsInstance(DOORS.pack(40, value), bytes)
                self.assertEqual(repr(value), shown)

    def test_names_that_are_wrong(self) -> None:
        """A name that is missing and one that no element has are told, as is a count that doesn't agree."""
        del_speed = {key: it for key, it in VALUE.items() if key != "speed"}
        self.check(40, del_speed, "doors: 'speed' is missing")
        self.check(40, {**VALUE, "sped": 1}, "doors: there is no element 'sped'")
        self.check(40, {**del_speed, "sped": 1}, "doors: there is no element 'sped', and 'speed' is missing")
        self.check(40, {**VALUE, 0: 2}, "doors: there is no element 0")
        given = collections.defaultdict(list, del_speed)
        self.check(40, given, "doors: 'speed' is missing")
        self.assertEqual(given, del_speed)
        self.check(40, {**VALUE, "count": None}, "doors.count: None is no UINT16, 0 to 65535")
        self.check(40, {**VALUE, "count": 2}, "doors.lamps: the list has 1 entries, and not 2")
        self.check(40, {**VALUE, "state": [0] * 256}, "doors, element 0: 256 is no UINT8, 0 to 255")
        self.check(42, {"x": 1}, "dataset 42: a dict can't say element 1, which has no name: a list can")

    def test_the_way(self) -> None:
        """It is told by names, and by positions where there are none."""
        for value, said in [
            ({**VALUE, "state": [0, 300]}, "doors.state[1]: 300 is no UINT8, 0 to 255"),
            ([2, [0, 300], *LISTS[2:]], "doors.state[1]: 300 is no UINT8, 0 to 255"),
            ({**VALUE, "lamps": [{"on": 0, "broken": [0, -1]}]}, "doors.lamps[0].broken[1]: -1 is no BOOL8, 0 to 255"),
            ({**VALUE, "lamps": [{"on": 0}]}, "doors.lamps[0]: 'broken' is missing"),
            ({**VALUE, "lamp": 5}, "doors.lamp: 5 is no list, dict or dataclass"),
            ({**VALUE, "lamps": {}}, "doors.lamps: {} is no list"),
            (LISTS[:5], "doors: the list has 5 entries, and not 6"),
        ]:
            self.check(40, value, said)
        self.check(42, [0, 65536, [0, [0, 0]]], "dataset 42, element 1: 65536 is no UINT16, 0 to 65535")
        self.check(42, [0, 0, [0, [0, "x"]]], "dataset 42, lamp.broken[1]: 'x' is no BOOL8, 0 to 255")
        deep: list[Any] = []
        for _ in range(100_000):
            deep = [deep]
        self.check(42, [deep, 0, []], "dataset 42, x: a list that nests very deep is no UINT8, 0 to 255")
        for data, said in [(b"\0\0", "doors.speed: 1 bytes are left, and 1 of REAL32 have 4"),
                           (DATA[:-1], "doors.lamps[0].broken: 1 bytes are left, and 2 of BOOL8 have 2"),
                           (DATA + b"\0", "doors: 1 bytes are left over")]:
            with self.assertRaises(DoesNotFit) as caught:
                DOORS.unpack(40, data)
            self.assertEqual(str(caught.exception), said)
        with self.assertRaisesRegex(DoesNotFit, "^doors: the value has 15 bytes, and at most 14 are carried$"):
            DOORS.pack(40, VALUE, 14)


class Meanings(unittest.TestCase):
    """What else datasets say of values."""

    def test_times(self) -> None:
        """A TIMEDATE is a moment, in UTC: a number of seconds, and a pair with ticks or with microseconds."""
        of = datasets("[[dataset]]\nid = 40\nelement = [{ type = 14 }, { type = 15 }, { type = 16 }]")
        data = bytes.fromhex("00000001" "0000000a4000" "0000000a0003d090")
        moments = [datetime.datetime(1970, 1, 1, 0, 0, second, part, datetime.UTC)
                   for second, part in ((1, 0), (10, 250_000), (10, 250_000))]
        self.assertEqual([of.time(it) for it in of.unpack(40, data)], moments)
        self.assertEqual(of.time((10, 250_000)), moments[2])
        self.assertEqual(of.time(TimeDate48(10, 0x4000)), moments[1])
        self.assertEqual(of.time(0xFFFFFFFF), datetime.datetime(2106, 2, 7, 6, 28, 15, 0, datetime.UTC))
        self.assertEqual((TimeDate48(1, 2).ticks, TimeDate64(1, 2).microseconds), (2, 2))
        no_time: Any = "x"
        self.assertRaisesRegex(ValueError, "^'x' is no time$", of.time, no_time)

    def test_messages(self) -> None:
        """The value of a message is by the dataset of its comId, and its bytes where that has none."""
        listener = Handle("listener", 1)
        data = b"\x02\x00\x07"
        for com_id, value in ((300, {"on": True, "broken": [False, 7]}), (301, data), (302, data)):
            told = Notified(listener, "10.0.0.2:17225", com_id, "", "", data)
            self.assertEqual(DOORS.of_message(told), value)
        asked = Asked(listener, listener, uuid.UUID(int=1), "10.0.0.2:17225", 300, "", "", b"\x02")
        with self.assertRaisesRegex(DoesNotFit, "^dataset 41, broken: 0 bytes are left, and 2 of BOOL8 have 2$"):
            DOORS.of_message(asked)
        error = Replied(listener, "10.0.0.2:17225", "Me", -1, 300, b"")
        self.assertEqual(DOORS.of_message(error), b"")
        no_message: Any = Silent(listener)
        self.assertRaisesRegex(TypeError, "^Silent.handle=<listener 1>. is no message$", DOORS.of_message, no_message)


def seconds(act: Callable[[], object]) -> float:
    """How long something takes."""
    begin = time.perf_counter()
    act()
    return time.perf_counter() - begin


class Time(unittest.TestCase):
    """How long it takes."""

    def check(self, of: Datasets, in_list: list[Any], by_names: dict[str, Any]) -> None:
        """Looks at how long it takes to pack a value of dataset 41."""
        self.assertEqual(of.pack(41, in_list), of.pack(41, by_names))
        # The least of many tries is that of a machine which does nothing else, and both are tried in turn.
        tries = [(seconds(lambda: of.pack(41, by_names)), seconds(lambda: of.pack(41, in_list))) for _ in range(1000)]
        self.assertLess(min(named for named, _ in tries) / min(listed for _, listed in tries), 1.5)

    def test_a_dict_takes_at_most_half_longer_than_its_list(self) -> None:
        """So it is for 24 elements, one of which is another dataset."""
        kinds = ["UINT8", "INT16", "UINT32", "BOOL8"]
        inner = [Element(kinds[index % 4], 1, f"signal_{index}") for index in range(4)]
        outer = [*(Element(kinds[index % 4], 1, f"signal_{index}") for index in range(23)), Element(40, 1, "inner")]
        by_names: dict[str, Any] = {f"signal_{index}": 1 for index in range(23)}
        by_names["inner"] = {f"signal_{index}": 1 for index in range(4)}
        self.check(Datasets({40: inner, 41: outer}), [*[1] * 23, [1] * 4], by_names)

    def test_arrays(self) -> None:
        """So it is for arrays of REALs, whose list is one of bits or of floats, and of datasets with one element."""
        of = Datasets({40: [Element("UINT8", 1, "it")],
                       41: [Element("UINT32", 500, "reals", "REAL32"), Element("UINT8", 1), Element(40, 0, "more")]})
        by_names = {"reals": [1.0] * 500, "more": [{"it": 1}] * 20}
        for real in (0x3F800000, 1.0):
            self.check(of, [[real] * 500, 20, [[1]] * 20], by_names)
