"""The forms that a value has in Python, for values.py: a list of raw numbers, dicts by names, and dataclasses of
trdp-structs. What numbers mean is written here by hand."""
from __future__ import annotations

import functools
import struct
import sys
import types
from collections.abc import Callable, Iterator
from typing import Any

import trdp_structs
from drawn import ENCODINGS, Case
from trdp_slot import Datasets, DoesNotFit, Element, is_count

# Of a REAL the letters of `struct` for its bits and its number.
REALS = {"REAL32": ("I", "f"), "REAL64": ("Q", "d")}
BOOLS = {"BOOL8": {0: False, 1: True}, "ANTIVALENT8": {1: False, 2: True}}

Build = Callable[[int, list[Any]], Any]  # makes a value of a dataset of its entries


def meant(element: Element, item: Any) -> Any:
    """What a raw item of a basic type means."""
    kind = element.as_ or str(element.type)
    if kind in REALS:
        bits, code = REALS[kind]
        return struct.unpack(f">{code}", struct.pack(f">{bits}", item))[0]
    return BOOLS[kind].get(item, item) if kind in BOOLS else item


def text_of(element: Element, items: list[int]) -> Any:
    """The text that an array of CHAR8 or UTF16 is, or its numbers if it is none."""
    encoding, code, wrong = ENCODINGS[str(element.type)]
    if items[:1] == [wrong]:
        return items
    return struct.pack(f">{len(items)}{code}", *items).decode(encoding).rstrip("\0")


def read(datasets: Datasets, number: int, value: list[Any], build: Build) -> Any:
    """A list of raw numbers as what it means."""
    entries: list[Any] = []
    for element, entry in zip(datasets.elements[number], value):
        items = [entry] if element.size == 1 else entry
        if isinstance(element.type, int):
            found: Any = [read(datasets, element.type, it, build) for it in items]
        elif element.size != 1 and element.type in ENCODINGS:
            found = text_of(element, items)
        else:
            found = [meant(element, it) for it in items]
        entries.append(found[0] if element.size == 1 else found)
    return build(number, entries)


def dicts(datasets: Datasets, has_counts: bool) -> Build:
    """Makes dicts by names, with counts or without; a list of a dataset without names."""
    def build(number: int, entries: list[Any]) -> Any:
        elements = datasets.elements[number]
        if elements[0].name is None:
            return entries
        return {element.name: entries[index] for index, element in enumerate(elements)
                if has_counts or not is_count(elements, index)}
    return build


def records(datasets: Datasets, classes: dict[int, type[Any]]) -> Build:
    """Makes instances of dataclasses."""
    def build(number: int, entries: list[Any]) -> Any:
        kind = classes[number]
        names = [it.name for it in datasets.elements[number]]
        return kind(**{field: entries[key if isinstance(key, int) else names.index(key)]
                       for field, key in kind.trdp_elements.items()})
    return build


@functools.lru_cache(1)
def classes_of(datasets: Datasets) -> dict[int, type[Any]]:
    """The dataclasses that trdp-structs writes, by the numbers of their datasets."""
    made = sys.modules["made"] = types.ModuleType("made")
    structs = trdp_structs.structs_of(datasets, trdp_structs.PYTHON)
    exec(trdp_structs.python_module(structs, "made.toml"), vars(made))
    return {number: getattr(made, it.name.identifier) for number, it in structs.items()}


def quiet(datasets: Datasets, number: int, value: list[Any]) -> list[Any]:
    """A value whose signalling NaNs of REAL32 are quiet: Python may make them so."""
    def changed(element: Element, entry: Any) -> Any:
        if isinstance(element.type, int):
            return quiet(datasets, element.type, entry)
        is_nan = element.as_ == "REAL32" and entry & 0x7FFFFFFF > 0x7F800000
        return entry | 0x00400000 if is_nan else entry
    return [changed(element, entry) if element.size == 1 else [changed(element, it) for it in entry]
            for element, entry in zip(datasets.elements[number], value)]


def faults_of(case: Case) -> Iterator[str]:
    """What is wrong with the forms that a value has in Python."""
    try:
        yield from differences(case)
    except DoesNotFit as fault:
        yield f"refused: {fault}"


def differences(case: Case) -> Iterator[str]:
    """What differs between these forms. Values are compared as texts, in which a NaN equals itself, and -0.0 and 0.0
    differ. Raises DoesNotFit."""
    datasets, number = case.datasets, case.number
    classes = classes_of(datasets)
    named = read(datasets, number, case.value, dicts(datasets, has_counts=True))
    record = read(datasets, number, case.value, records(datasets, classes))
    for value in (named, read(datasets, number, case.value, dicts(datasets, has_counts=False)), record):
        data = datasets.pack(number, value)
        if data != case.data and data != datasets.pack(number, quiet(datasets, number, case.value)):
            yield f"{value!r} gives {data.hex()}"
    for wanted, value in ((case.value, datasets.unpack(number, case.data)),
                          (named, datasets.by_names().unpack(number, case.data)),
                          (record, datasets.unpack(number, case.data, into=classes[number]))):
        if repr(value) != repr(wanted):
            yield f"the bytes give {value!r}, and not {wanted!r}"
