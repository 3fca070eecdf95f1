"""How bytes become values of datasets: lists, values by names, or instances of dataclasses."""
from __future__ import annotations

from collections.abc import Callable, Sequence
from typing import Any, Protocol

from ._items import item_of
from ._misfits import Misfit, Place
from ._texts import ENCODINGS, text_of
from ._types import Element


class Unpacks(Protocol):
    """What makes values of bytes: those of a basic type or of a dataset."""

    def unpack(self, data: bytes, offset: int) -> tuple[Any, int]:
        """The value whose bytes begin at that offset, and the offset of their end. Raises Misfit."""

    def unpack_all(self, data: bytes, offset: int, count: int) -> tuple[list[Any], int]:
        """The values of an array, and the offset of their end. Raises Misfit."""


class Single:
    """An element that is a single value."""

    def __init__(self, item: Unpacks) -> None:
        self._item = item

    def unpack(self, data: bytes, offset: int, count: Any) -> tuple[Any, int]:
        """Its entry in a value, and the offset of its end; `count` is the entry before. Raises Misfit."""
        return self._item.unpack(data, offset)


class Array:
    """An element that is an array, of that size or, where it is 0, of as many values as the entry before says."""

    def __init__(self, item: Unpacks, size: int) -> None:
        self._item = item
        self._size = size

    def unpack(self, data: bytes, offset: int, count: Any) -> tuple[Any, int]:
        """The same."""
        return self._item.unpack_all(data, offset, self._size or count)


class Text(Array):
    """An array of CHAR8 or UTF16: a text, or a list of numbers where the bytes are none."""

    def __init__(self, item: Unpacks, size: int, kind: str | int) -> None:
        super().__init__(item, size)
        self._kind = kind

    def unpack(self, data: bytes, offset: int, count: Any) -> tuple[Any, int]:
        numbers, end = super().unpack(data, offset, count)
        text = text_of(self._kind, data[offset:end])
        return numbers if text is None else text, end


class Unpacker:
    """Makes values of a dataset of bytes."""

    def __init__(self, elements: Sequence[Element], is_raw: Callable[[Element], bool], inner: Sequence[Unpacks | None],
                 build: Callable[[list[Any]], Any]) -> None:
        """`is_raw` is whether the numbers of an element are raw, as in a list, or what they mean, as by names. `inner`
        has for each element that is of another dataset what makes values of that one, and `build` makes a value of its
        entries."""
        self._build = build
        self._steps = [(Place(index, element.name), step_of(element, is_raw(element), item))
                       for index, (element, item) in enumerate(zip(elements, inner))]

    def unpack(self, data: bytes, offset: int) -> tuple[Any, int]:
        """The value whose bytes begin at that offset, and the offset of their end. Raises Misfit."""
        entries: list[Any] = []
        entry: Any = None
        for place, step in self._steps:
            try:
                entry, offset = step.unpack(data, offset, entry)
            except Misfit as fault:
                raise fault.within(place)
            entries.append(entry)
        return self._build(entries), offset

    def unpack_all(self, data: bytes, offset: int, count: int) -> tuple[list[Any], int]:
        """The values of an array, and the offset of their end. Raises Misfit. Each value has a byte at least, so that a
        count beyond the bytes ends where they do."""
        values = []
        for index in range(count):
            try:
                value, offset = self.unpack(data, offset)
            except Misfit as fault:
                raise fault.within(index)
            values.append(value)
        return values, offset


def step_of(element: Element, is_raw: bool, inner: Unpacks | None) -> Single | Array:
    """How an element is unpacked: to raw numbers, or to what they mean."""
    kind = element.type
    item = item_of(kind, element.as_, is_raw) if isinstance(kind, str) else inner
    assert item is not None
    if element.size == 1:
        return Single(item)
    return Text(item, element.size, kind) if kind in ENCODINGS and not is_raw else Array(item, element.size)
