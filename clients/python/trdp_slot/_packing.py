"""How values of datasets become bytes.

A value of a dataset is a list in the order of its elements, a dict by their names, or an instance of a dataclass that
has a field for each. What is known of a dataset is worked out once.
"""
from __future__ import annotations

import contextlib
import operator
from collections.abc import Callable, Mapping, Sequence
from typing import Any

from ._items import Packs, item_of
from ._limits import MD_MOST
from ._misfits import Misfit, Place
from ._records import fields_of, is_record
from ._shown import shown
from ._texts import ENCODINGS, text_bytes
from ._types import Element, nameless


class Single:
    """An element that is a single value."""

    def __init__(self, item: Packs) -> None:
        self._pack = item.pack

    def pack(self, entry: Any, count: Any) -> bytes:
        """The bytes of its entry in a value; `count` is the entry before. Raises Misfit."""
        return self._pack(entry)


class Array:
    """An element that is an array, of that size or, where it is 0, of as many values as the entry before says."""

    forms = "list"

    def __init__(self, item: Packs, size: int) -> None:
        self._pack_all = item.pack_all
        self._size = size

    def pack(self, entry: Any, count: Any) -> bytes:
        """The same."""
        if not isinstance(entry, (list, tuple)):
            raise Misfit(f"{shown(entry)} is no {self.forms}")
        size = self._size or count
        if len(entry) != size:
            raise Misfit(f"the list has {len(entry)} entries, and not {size}")
        return self._pack_all(entry)

    def count(self, entry: Any) -> int:
        """How many values an entry has; 0 for what is none, which is refused when it is packed."""
        return len(entry) if isinstance(entry, (list, tuple)) else 0


class Text(Array):
    """An array of CHAR8 or UTF16: a list of numbers, or a text, behind which there are zeros."""

    forms = "list or text"

    def __init__(self, item: Packs, size: int, kind: str | int) -> None:
        super().__init__(item, size)
        self._kind = kind
        self._width = ENCODINGS[kind][1]

    def pack(self, entry: Any, count: Any) -> bytes:
        if not isinstance(entry, str):
            return super().pack(entry, count)
        data = text_bytes(self._kind, entry)
        most = (self._size or count) * self._width
        if len(data) > most:
            raise Misfit(f"{shown(entry)} has {len(data)} bytes, and at most {most} are there")
        if most > MD_MOST:
            raise Misfit(f"it has {most} bytes, and at most {MD_MOST} are carried")
        return data.ljust(most, b"\0")

    def count(self, entry: Any) -> int:
        if not isinstance(entry, str):
            return super().count(entry)
        with contextlib.suppress(Misfit):
            return len(text_bytes(self._kind, entry)) // self._width
        return 0


Step = Single | Array

# The count that a value doesn't have.
LEFT_OUT: Any = object()


class Picker:
    """Puts what a value has by keys into the order of the elements: a dict by names, or an instance by fields."""

    def __init__(self, keys: Sequence[str | None], steps: Sequence[Step], elements: Sequence[Element],
                 getter: Callable[..., Callable[[Any], Any]], get: Callable[[Any, str], Any]) -> None:
        """By the key of each element, of which only counts may have none. `getter` makes what finds the entries of
        keys, and `get` finds that of one, or LEFT_OUT."""
        arrays = {at - 1: step for at, step in enumerate(steps) if isinstance(step, Array) and elements[at].size == 0}
        self.wanted = [key for index, key in enumerate(keys) if key is not None and index not in arrays]
        self.whole = None if None in keys else tuple_by(getter, keys)
        self._find = tuple_by(getter, self.wanted)
        self._get = get
        self._counts = [(index, keys[index], array) for index, array in arrays.items()]

    def entries(self, value: Any, has_counts: bool) -> Sequence[Any]:
        """The entries of a value that may lack counts: such a one is the length of the array behind it. `has_counts` is
        whether it may have some. Of one that lacks none, `whole` finds them sooner. Both raise what `getter` makes them
        raise."""
        entries = list(self._find(value))
        for index, key, array in self._counts:
            # The counts before this one are in their places by now, so its array is where it will be itself.
            count = self._get(value, key) if has_counts and key is not None else LEFT_OUT
            entries.insert(index, array.count(entries[index]) if count is LEFT_OUT else count)
        return entries


def tuple_by(getter: Callable[..., Callable[[Any], Any]], keys: Sequence[str | None]) -> Callable[[Any], Sequence[Any]]:
    """What finds the entries of all these keys."""
    find = getter(*keys)
    return find if len(keys) > 1 else lambda value: (find(value),)


def found(value: Mapping[str, Any], name: str) -> Any:
    """What a dict has by that name, or LEFT_OUT."""
    return value.get(name, LEFT_OUT)


class Packer(Packs):
    """Makes bytes of the values of a dataset."""

    def __init__(self, number: int, elements: Sequence[Element], inner: Callable[[int], Packs]) -> None:
        """`inner` answers what makes bytes of the values of another dataset, which is an element of this one."""
        self._number = number
        self._elements = elements
        self._places = [Place(index, element.name) for index, element in enumerate(elements)]
        self._in_lists = [step_of(element, True, inner) for element in elements]
        self._by_keys = [step_of(element, False, inner) for element in elements]
        names = [element.name for element in elements]
        self._names = frozenset(names)
        self._nameless = nameless(elements)
        self._by_names = None if self._nameless else Picker(names, self._by_keys, elements, operator.itemgetter, found)
        self._by_fields: dict[type, Picker] = {}

    def pack(self, value: Any) -> bytes:
        entries: Sequence[Any]
        if type(value) is dict:
            steps, entries = self._by_keys, self._named(value)
        elif isinstance(value, (list, tuple)):
            if len(value) != len(self._elements):
                raise Misfit(f"the list has {len(value)} entries, and not {len(self._elements)}")
            steps, entries = self._in_lists, value
        elif isinstance(value, Mapping):
            # A defaultdict, which is the caller's, would get each name that is looked for.
            steps, entries = self._by_keys, self._named(dict(value))
        else:
            steps, entries = self._by_keys, self._fielded(value)
        parts = []
        count: Any = None
        for place, step, entry in zip(self._places, steps, entries):
            try:
                parts.append(step.pack(entry, count))
            except Misfit as fault:
                raise fault.within(place)
            count = entry
        return b"".join(parts)

    def _named(self, value: Mapping[str, Any]) -> Sequence[Any]:
        """The entries of a dict, which has each name once, and no other one."""
        picker = self._by_names
        if picker is None:
            raise Misfit(f"a dict can't say element {self._nameless[0]}, which has no name: a list can")
        try:
            if picker.whole is not None and len(value) == len(self._elements):
                return picker.whole(value)
            has_more = len(value) != len(picker.wanted)
            entries = picker.entries(value, has_more)
        except KeyError:
            raise wrong_names(value, picker.wanted, self._names) from None
        if has_more and not value.keys() <= self._names:
            raise wrong_names(value, picker.wanted, self._names)
        return entries

    def _fielded(self, value: Any) -> Sequence[Any]:
        """The entries of an instance of a dataclass of this dataset."""
        if not is_record(value):
            raise Misfit(f"{shown(value)} is no list, dict or dataclass")
        kind = type(value)
        if kind not in self._by_fields:
            fields = fields_of(kind, self._number, self._elements)
            self._by_fields[kind] = Picker(fields, self._by_keys, self._elements, operator.attrgetter, getattr)
        picker = self._by_fields[kind]
        return picker.whole(value) if picker.whole is not None else picker.entries(value, True)


def step_of(element: Element, is_raw: bool, inner: Callable[[int], Packs]) -> Step:
    """How an element is packed, in a list, where numbers are raw, or by names."""
    kind = element.type
    item = inner(kind) if isinstance(kind, int) else item_of(kind, element.as_, is_raw)
    if element.size == 1:
        return Single(item)
    return Text(item, element.size, kind) if kind in ENCODINGS else Array(item, element.size)


def wrong_names(value: Mapping[str, Any], wanted: Sequence[str], names: frozenset[str | None]) -> Misfit:
    """What is wrong with the names of a dict: one that no element has, or one that is missing, or both."""
    unknown = [f"there is no element {shown(it)}" for it in value if it not in names]
    missing = [f"{shown(it)} is missing" for it in wanted if it not in value]
    return Misfit(", and ".join(unknown[:1] + missing[:1]))
