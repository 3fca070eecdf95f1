"""What packs and unpacks the values of the datasets of a configuration. Each is made when it is first needed."""
from __future__ import annotations

import functools
from collections.abc import Callable, Mapping, Sequence
from typing import Any

from ._packing import Packer
from ._readings import dataset_reading, is_read_raw
from ._records import class_of, fields_of
from ._types import Element, nameless
from ._unpacking import Unpacker


class Codecs:
    """Packers and unpackers, by the numbers of datasets. Each method raises KeyError where there is no such dataset."""

    def __init__(self, elements: Mapping[int, Sequence[Element]]) -> None:
        """Datasets that don't nest without end."""
        self._elements = elements
        self.packer = functools.cache(self._packer)
        self.lists = functools.cache(self._lists)
        self.by_names = functools.cache(self._by_names)
        self._records: dict[tuple[int, type[Any]], Unpacker] = {}
        self.readings = functools.cache(self._readings)

    def __reduce__(self) -> tuple[type[Codecs], tuple[Mapping[int, Sequence[Element]]]]:
        """A copy in another process makes its own."""
        return Codecs, (self._elements,)

    def _packer(self, number: int) -> Packer:
        """What packs a value of any form."""
        return Packer(number, self._elements[number], self.packer)

    def _lists(self, number: int) -> Unpacker:
        """What makes a list of raw numbers."""
        return Unpacker(self._elements[number], lambda element: True, self._inner(number, self.lists), list)

    def _by_names(self, number: int) -> Unpacker:
        """What makes a dict, or a list where an element has no name."""
        elements = self._elements[number]
        names = [(it.name, index) for index, it in enumerate(elements) if it.name is not None]
        is_list = bool(nameless(elements))

        def build(entries: list[Any]) -> Any:
            return entries if is_list else {name: entries[index] for name, index in names}

        return Unpacker(elements, lambda element: False, self._inner(number, self.by_names), build)

    def by_fields(self, number: int, kind: type[Any]) -> Unpacker:
        """What makes an instance of a dataclass. Raises Misfit where it is none of that dataset."""
        if (number, kind) not in self._records:
            self._records[number, kind] = self._by_fields(number, kind)
        return self._records[number, kind]

    def _by_fields(self, number: int, kind: type[Any]) -> Unpacker:
        elements = self._elements[number]
        fields = fields_of(kind, number, elements)
        indexes = [(field, index) for index, field in enumerate(fields) if field is not None]

        def build(entries: list[Any]) -> Any:
            return kind(**{field: entries[index] for field, index in indexes})

        inner = [self.by_fields(it.type, class_of(kind, field)) if isinstance(it.type, int) else None
                 for it, field in zip(elements, fields)]
        return Unpacker(elements, lambda element: False, inner, build)

    def _readings(self, number: int) -> Unpacker:
        """What makes a text for people."""
        elements = self._elements[number]
        return Unpacker(elements, is_read_raw, self._inner(number, self.readings),
                        functools.partial(dataset_reading, elements))

    def _inner(self, number: int, of: Callable[[int], Unpacker]) -> list[Unpacker | None]:
        """For each element of a dataset that is of another one, what makes values of that."""
        return [of(it.type) if isinstance(it.type, int) else None for it in self._elements[number]]
