"""Reads the datasets of a device configuration. Whatever can't be meant is a DeviceFault with its line."""
from __future__ import annotations

from collections.abc import Iterator, Sequence

from ._device import DataSet, Element
from ._faults import DeviceFault
from ._shown import shown
from ._tree import Node
from ._types import BASIC, NUMBERED
from ._words import U32_MOST, missing, needed_number_at, number_at, number_of, real_at, text_at


def read_datasets(nodes: Sequence[Node]) -> dict[int, DataSet]:
    """The datasets of a device by their numbers, in its order."""
    found: dict[int, DataSet] = {}
    for node in nodes:
        number = needed_number_at(node, "id")
        if number in found:
            raise DeviceFault(node.line, f"a second data-set has the id {number}")
        elements = tuple(map(read_element, node.all("element")))
        found[number] = DataSet(node.line, number, text_at(node, "name") or "", elements)
    for dataset in found.values():
        for element in dataset.elements:
            if isinstance(element.type, int) and element.type not in found:
                raise DeviceFault(element.line, f"there is no type and no data-set {element.type}")
    check_nesting(found)
    return found


def read_element(node: Node) -> Element:
    """An element of a dataset."""
    size = number_at(node, "array-size")
    unit = "".join(it if it.isprintable() else " " for it in node.attributes.get("unit", "")).strip()
    return Element(node.line, text_at(node, "name") or "", type_at(node), 1 if size is None else size, unit,
                   real_at(node, "scale", 1.0), real_at(node, "offset", 0.0))


def type_at(node: Node) -> str | int:
    """The type of an element: a basic type, by its name or its number, or a dataset's number."""
    text = text_at(node, "type")
    if text is None:
        raise missing(node, "type")
    if text in BASIC:
        return text
    if not text.lstrip("+").isdecimal():
        raise DeviceFault(node.line, f"there is no type {shown(text)}")
    number = number_of(node, "type", text, 0, U32_MOST)
    return NUMBERED.get(number, number)


def parts_of(datasets: dict[int, DataSet], number: int) -> Iterator[Element]:
    """The elements of a dataset that are datasets."""
    return (it for it in datasets[number].elements if isinstance(it.type, int))


def check_nesting(datasets: dict[int, DataSet]) -> None:
    """Raises DeviceFault if a dataset nests in itself."""
    done: set[int] = set()
    for first in datasets:
        # From the first dataset to one within it, each with the parts that are still to be looked at.
        way = [] if first in done else [(first, parts_of(datasets, first))]
        outer = {first}
        while way:
            number, parts = way[-1]
            part = next(parts, None)
            if part is None:
                done.add(number)
                outer.discard(number)
                way.pop()
            elif part.type in outer:
                raise DeviceFault(part.line, f"data-set {part.type} nests in itself")
            elif part.type not in done:
                assert isinstance(part.type, int)
                outer.add(part.type)
                way.append((part.type, parts_of(datasets, part.type)))
