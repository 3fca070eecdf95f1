"""Datasets and values that are drawn by chance, for values.py: elements of each type with names of all kinds, values
with the ends of each range, REALs with everything that IEEE 754 has, and texts."""
from __future__ import annotations

import pathlib
import random
import struct
import sys
from collections.abc import Iterator
from typing import Any, NamedTuple

sys.path.insert(0, str(pathlib.Path(__file__).resolve().parent.parent / "python"))
from trdp_slot import AS_TYPES, BASIC_TYPES, COUNT_TYPES, DEPTH_MOST, Datasets, Element, Number  # noqa: E402

KINDS = [*BASIC_TYPES, *AS_TYPES]
FIRST = 1000  # the number of the first dataset
OTHERS = 3  # how many other bytes a value has, besides those of a value whose arrays may be too long
BYTES_MOST = 4000  # of a value
NAMES = ["state", "State", "class", "door state", "2nd", "Tür", "double", "lambda", "a.b[0]", "__x", "trdp_dataset"]
DATASET_NAMES = ["doors", "Doors", "door status", "new", "state"]
# What is drawn most. Of a REAL this is 0, -0, the smallest number, the largest subnormal one and the number after it,
# the lowest number, 1, the infinities, a quiet NaN and one that signals.
SPECIAL = {
    "BOOL8": [0, 1, 2], "ANTIVALENT8": [0, 1, 2, 3],
    "REAL32": [0, 1 << 31, 1, 0x007FFFFF, 0x00800000, 0xFF7FFFFF, 0x3F800000, 0x7F800000, 0xFF800000, 0x7FC00001,
               0xFFA00005],
    "REAL64": [0, 1 << 63, 1, (1 << 52) - 1, 1 << 52, (0xFFF << 52) - 1, 0x3FF << 52, 0x7FF << 52, 0xFFF << 52,
               (0x7FF8 << 48) + 1, (0xFFF4 << 48) + 5],
}
TEXTS = ["", "TSI", "Tür 5", "€", "\U0001F686"]
# The encoding of an array that is a text, the letter of `struct`, and a number with which no text begins.
ENCODINGS = {"CHAR8": ("utf-8", "B", 0xFF), "UTF16": ("utf-16-be", "H", 0xDC00)}

Rooms = dict[tuple[int, int], int]  # of members, by the dataset and the index of the element


class Case(NamedTuple):
    """Datasets; how many items each counted array may have; and a value of one of them, its bytes, and others that are
    near them."""

    datasets: Datasets
    rooms: Rooms
    number: int
    value: list[Any]
    data: bytes
    others: list[bytes]


def draw(chance: random.Random) -> Iterator[Case]:
    """Cases without end: some datasets, with a value of each, and then others."""
    while True:
        drawn = draw_datasets(chance)
        more = {key: room + 1 for key, room in drawn[1].items()}
        for number in drawn[0].elements:
            value = draw_value(drawn, number, chance)
            data = drawn[0].pack(number, value)
            longer = drawn[0].pack(number, draw_value((drawn[0], more), number, chance))
            if max(len(data), len(longer)) <= BYTES_MOST:
                yield Case(*drawn, number, value, data, [longer, *(near(data, chance) for _ in range(OTHERS))])


def draw_datasets(chance: random.Random) -> tuple[Datasets, Rooms]:
    """Datasets, each of which may have those before as elements, and the rooms of their members."""
    elements: dict[int, list[Element]] = {}
    depths: dict[int, int] = {}
    rooms: Rooms = {}
    for number in range(FIRST, FIRST + chance.randrange(1, 8)):
        inner = [it for it in depths if depths[it] < DEPTH_MOST]
        elements[number] = draw_elements(inner, chance)
        rooms.update({(number, index): it.size or chance.randrange(1, 5) for index, it in enumerate(elements[number])})
        depths[number] = 1 + max((depths[it.type] for it in elements[number] if isinstance(it.type, int)), default=0)
    names = {number: chance.choice(DATASET_NAMES) for number in elements if chance.random() < 0.8}
    return Datasets(elements, dataset_names=names), rooms


def draw_elements(inner: list[int], chance: random.Random) -> list[Element]:
    """The elements of a dataset, which may have these datasets. They have names, or none has one."""
    drawn: list[Element] = []
    names = chance.sample(NAMES, 5)
    has_names = chance.random() < 0.85
    for index in range(chance.randrange(1, 6)):
        kind: str | int = chance.choice(KINDS)
        if inner and chance.random() < 0.4:
            kind = chance.choice(inner[-2:])
        size = chance.choice([1, 1, 1, 2, 3])
        if drawn and counts(drawn[-1]) and chance.random() < 0.7:
            size = 0
        elif chance.random() < 0.25:
            kind, size = chance.choice(COUNT_TYPES), 1
        as_ = kind if isinstance(kind, str) and kind in AS_TYPES else None
        drawn.append(Element(AS_TYPES[as_] if as_ else kind, size, names[index] if has_names else None, as_))
    return drawn


def counts(element: Element) -> bool:
    """Whether an element may count the array after it."""
    return element.size == 1 and element.type in COUNT_TYPES and element.as_ is None


def draw_value(drawn: tuple[Datasets, Rooms], number: int, chance: random.Random) -> list[Any]:
    """A value of a dataset, as a list of the node's raw numbers."""
    datasets, rooms = drawn
    elements = datasets.elements[number]
    value: list[Any] = []
    for index, element in enumerate(elements):
        if index + 1 < len(elements) and elements[index + 1].size == 0:
            value.append(chance.randint(0, rooms[number, index + 1]))
        elif element.size == 1:
            value.append(draw_item(drawn, element, chance))
        elif element.type in ENCODINGS:
            value.append(draw_text(str(element.type), element.size, value[-1] if value else 0, chance))
        else:
            count = element.size or value[-1]
            value.append([draw_item(drawn, element, chance) for _ in range(count)])
    return value


def draw_item(drawn: tuple[Datasets, Rooms], element: Element, chance: random.Random) -> Any:
    """One item of an element."""
    if isinstance(element.type, int):
        return draw_value(drawn, element.type, chance)
    special = SPECIAL.get(element.as_ or element.type)
    if special and chance.random() < 0.7:
        return chance.choice(special)
    basic = BASIC_TYPES[element.type]
    if isinstance(basic, Number):
        return draw_number(chance, basic.low, basic.high)
    return tuple(draw_number(chance, 0, highest) for highest in basic.highest)


def draw_number(chance: random.Random, low: int, high: int) -> int:
    """A number of a range, often one of its ends."""
    return chance.choice([low, high, chance.randint(low, high), chance.randint(low, high)])


def draw_text(kind: str, size: int, count: int, chance: random.Random) -> list[int]:
    """The numbers of an array of that size, or with that count if it has none: a text, or what is no text. Zeros follow
    a text, but not if the array has a count: then a dict may leave the count out, and the text says it."""
    encoding, code, wrong = ENCODINGS[kind]
    items = size or count
    if items and chance.random() < 0.4:
        return [wrong, *(chance.choice([0, 1, wrong, chance.randrange(256)]) for _ in range(items - 1))]
    length = items * struct.calcsize(code)
    data = (chance.choice(TEXTS) if size else "doors"[:count]).encode(encoding)
    return list(struct.unpack(f">{items}{code}", (data if len(data) <= length else b"").ljust(length, b"\0")))


def near(data: bytes, chance: random.Random) -> bytes:
    """Bytes that differ a little."""
    other = bytearray(data)
    for _ in range(chance.randrange(3)):
        if other:
            other[chance.randrange(len(other))] = chance.choice([0, 1, 2, 3, 5, 255])
    if chance.random() < 0.3:
        other += bytes(chance.randrange(4))
    return bytes(other[:len(other) - chance.choice([0, 0, 0, 1, 2])])
