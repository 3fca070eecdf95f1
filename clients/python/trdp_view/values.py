"""Values of datasets: by names for programs, in texts for people, and their numbers for plots."""
from __future__ import annotations

import functools
import math
from collections.abc import Iterator
from typing import Any

from trdp_slot import Datasets, Element, decimals_of

from .known import File

LEAVES_MOST = 64
"""The most numbers of a value that are told for a plot."""
known_decimals = functools.cache(decimals_of)


def value_of(file: File, com_id: int, payload: bytes) -> Any:
    """The value of a payload by names, in what JSON has; its hexadecimal digits, if no dataset is known. Raises
    DoesNotFit."""
    number = file.dataset_of(com_id)
    return plain(file.named.unpack(number, payload)) if number else payload.hex()


def plain(value: Any) -> Any:
    """A value without what JSON lacks: a float that is no number is its name."""
    if isinstance(value, dict):
        return {name: plain(it) for name, it in value.items()}
    if isinstance(value, (list, tuple)):
        return [plain(it) for it in value]
    if isinstance(value, float) and not math.isfinite(value):
        return str(value)
    return value


def reading(file: File, com_id: int, payload: bytes) -> str:
    """What people read of a payload: its value with names and units; its hexadecimal digits, if no dataset is known.
    Raises DoesNotFit."""
    return file.datasets.reading(file.dataset_of(com_id), payload)


def leaves(file: File, com_id: int, payload: bytes) -> dict[str, float]:
    """The numbers in the value of a payload as people read them, by their names; none, if no dataset is known. Raises
    DoesNotFit."""
    number = file.dataset_of(com_id)
    if not number:
        return {}
    value = file.named.unpack(number, payload)
    return {name: it for (name, it), _ in zip(leaves_of(file.datasets, number, value, ""), range(LEAVES_MOST))}


def leaves_of(datasets: Datasets, number: int, value: Any, way: str) -> Iterator[tuple[str, float]]:
    """The numbers in a value of a dataset, which is at the end of a way of names."""
    for index, element in enumerate(datasets.elements[number]):
        # A value by names is a list, if an element has no name. Counts may be missing.
        entry = value.get(element.name) if isinstance(value, dict) else value[index]
        name = way + (element.name or f"element {index}")
        if element.size == 1:
            yield from leaves_in(datasets, element, entry, name)
        elif isinstance(entry, list):
            for at, item in enumerate(entry):
                yield from leaves_in(datasets, element, item, f"{name}[{at}]")


def leaves_in(datasets: Datasets, element: Element, entry: Any, name: str) -> Iterator[tuple[str, float]]:
    """The numbers in an entry of a value."""
    if isinstance(element.type, int):
        yield from leaves_of(datasets, element.type, entry, f"{name}.")
    elif isinstance(entry, (int, float)) and math.isfinite(number := people_number(element, entry)):
        unit = f", {element.unit}" if element.unit else ""
        yield name + unit, number


def people_number(element: Element, raw: float) -> float:
    """The number that people read, without digits that only the arithmetic of floats adds."""
    found = raw * element.scale + element.offset
    decimals = known_decimals(element) if math.isfinite(found) else None
    return float(found if decimals is None else round(found, decimals))
