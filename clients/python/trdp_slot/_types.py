"""The basic types, and the elements of a dataset."""
from __future__ import annotations

from collections.abc import Mapping, Sequence
from typing import NamedTuple


class Number(NamedTuple):
    """A basic type whose values are numbers: its letter for `struct`, and the range of its values."""

    code: str
    low: int
    high: int


class Time(NamedTuple):
    """A basic type whose values are pairs of numbers: its letters for `struct`, and the highest of each; the lowest
    is 0."""

    code: str
    highest: tuple[int, int]


def signed(code: str, bits: int) -> Number:
    return Number(code, -(1 << bits - 1), (1 << bits - 1) - 1)


def unsigned(code: str, bits: int) -> Number:
    return Number(code, 0, (1 << bits) - 1)


BASIC_TYPES: Mapping[str, Number | Time] = {
    "BOOL8": unsigned("B", 8),
    "BITSET8": unsigned("B", 8),
    "CHAR8": unsigned("B", 8),
    "UTF16": unsigned("H", 16),
    "INT8": signed("b", 8),
    "INT16": signed("h", 16),
    "INT32": signed("i", 32),
    "INT64": signed("q", 64),
    "UINT8": unsigned("B", 8),
    "UINT16": unsigned("H", 16),
    "UINT32": unsigned("I", 32),
    "UINT64": unsigned("Q", 64),
    "TIMEDATE32": unsigned("I", 32),
    "TIMEDATE48": Time("IH", (0xFFFFFFFF, 0xFFFF)),
    "TIMEDATE64": Time("II", (0xFFFFFFFF, 0xFFFFFFFF)),
}
"""The basic types by name. A TIMEDATE48 is (seconds, ticks of 1/65536 s), a TIMEDATE64 (seconds, microseconds)."""

NUMBERED: dict[int | str, str] = {
    1: "BOOL8", 2: "CHAR8", 3: "UTF16", 4: "INT8", 5: "INT16", 6: "INT32", 7: "INT64", 8: "UINT8", 9: "UINT16",
    10: "UINT32", 11: "UINT64", 14: "TIMEDATE32", 15: "TIMEDATE48", 16: "TIMEDATE64",
}
TYPE_NAMES: Mapping[int | str, str] = {**NUMBERED, **{name: name for name in BASIC_TYPES}}
"""The name of a basic type, by what a configuration may have for it. The number 1 is that of BOOL8 and of BITSET8."""

AS_TYPES: Mapping[str, str] = {"REAL32": "UINT32", "REAL64": "UINT64", "ANTIVALENT8": "BITSET8"}
"""What an element may be read as, by the key `as`, and over which type each stands, which is that of the node."""

REAL_TYPES: Mapping[int | str, str] = {12: "REAL32", 13: "REAL64", "REAL32": "REAL32", "REAL64": "REAL64"}
"""The types that the node doesn't take, by what a configuration may have for them."""
COUNT_TYPES = ("UINT8", "UINT16", "UINT32")
DEPTH_MOST = 5
FIRST_DATASET = 31
TICKS = 65536  # of a TIMEDATE48, in a second


class Element(NamedTuple):
    """An element of a dataset: a basic type's name or the number of a dataset, and how many values it has: 1 is a
    single one, more an array of that many, and 0 an array of as many as the element before it says.

    The rest is for programs and people, and the node ignores it: its name; the key `as` of AS_TYPES; the unit; and by
    `raw * scale + offset` the number that people read. Programs pass raw numbers."""

    type: str | int
    size: int
    name: str | None = None
    as_: str | None = None
    unit: str = ""
    scale: float = 1.0
    offset: float = 0.0


def is_count(elements: Sequence[Element], index: int) -> bool:
    """Whether an element counts the array behind it."""
    return index + 1 < len(elements) and elements[index + 1].size == 0


def nameless(elements: Sequence[Element]) -> list[int]:
    """Which elements have no name and are no counts. A dataset that has one is no dict."""
    return [index for index, it in enumerate(elements) if it.name is None and not is_count(elements, index)]
