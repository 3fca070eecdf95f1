"""The single values of the basic types: how they become bytes, and bytes become them.

A list has the raw numbers of the node. A value by names has what they mean: a bool for a BOOL8 and an ANTIVALENT8, a
float for a REAL. Both take floats and bools, so only a whole number at a REAL differs: in a list it is the bits, and by
names it is the number.
"""
from __future__ import annotations

import functools
import struct
from collections.abc import Callable, Mapping, Sequence
from typing import Any

from ._misfits import Misfit
from ._shown import shown
from ._timedates import TimeDate48, TimeDate64
from ._types import BASIC_TYPES, Number, Time

# What numbers mean: of an ANTIVALENT8 it is our reading, which no one has checked against the standard.
MEANINGS: Mapping[str, Mapping[int, bool]] = {"BOOL8": {0: False, 1: True}, "ANTIVALENT8": {1: False, 2: True}}
REAL_CODES = {"REAL32": "f", "REAL64": "d"}
PAIRS: Mapping[str, Callable[[Any], tuple[int, int]]] = {
    "TIMEDATE48": TimeDate48._make, "TIMEDATE64": TimeDate64._make}


class Packs:
    """What makes bytes of values: of those of a basic type or of a dataset."""

    def pack(self, value: Any) -> bytes:
        """The bytes of a value. Raises Misfit."""
        raise NotImplementedError

    def pack_all(self, values: Sequence[Any]) -> bytes:
        """The bytes of the values of an array. Raises Misfit."""
        parts = []
        for index, value in enumerate(values):
            try:
                parts.append(self.pack(value))
            except Misfit as fault:
                raise fault.within(index)
        return b"".join(parts)


class Item(Packs):
    """A basic type, as it is read."""

    def __init__(self, kind: str, code: str) -> None:
        self.kind = kind
        self._code = code
        self._struct = struct.Struct(">" + code)

    def unpack(self, data: bytes, offset: int) -> tuple[Any, int]:
        """The value whose bytes begin at that offset, and the offset of their end. Raises Misfit."""
        values, end = self.unpack_all(data, offset, 1)
        return values[0], end

    def unpack_all(self, data: bytes, offset: int, count: int) -> tuple[list[Any], int]:
        """The values of an array, and the offset of their end. Raises Misfit."""
        raise NotImplementedError

    def _end(self, data: bytes, offset: int, count: int) -> int:
        """The offset of the end of that many values."""
        length = count * self._struct.size
        if offset + length > len(data):
            raise Misfit(f"{len(data) - offset} bytes are left, and {count} of {self.kind} have {length}")
        return offset + length


class NumberItem(Item):
    """A whole number."""

    def __init__(self, kind: str, number: Number) -> None:
        super().__init__(kind, number.code)
        self._range = f"{number.low} to {number.high}"

    def pack(self, value: Any) -> bytes:
        try:
            return self._struct.pack(value)
        except (struct.error, OverflowError):
            raise Misfit(f"{shown(value)} is no {self.kind}, {self._range}") from None

    def pack_all(self, values: Sequence[Any]) -> bytes:
        try:
            return struct.pack(f">{len(values)}{self._code}", *values)
        except (struct.error, OverflowError):
            return super().pack_all(values)

    def unpack_all(self, data: bytes, offset: int, count: int) -> tuple[list[Any], int]:
        end = self._end(data, offset, count)
        return list(struct.unpack_from(f">{count}{self._code}", data, offset)), end


class MeantItem(NumberItem):
    """A whole number, some of whose values mean a bool."""

    def __init__(self, kind: str, number: Number, meanings: Mapping[int, bool], is_raw: bool) -> None:
        super().__init__(kind, number)
        self._meanings: Mapping[int, bool] = {} if is_raw else meanings
        self._numbers = {meaning: number for number, meaning in meanings.items()}

    def pack(self, value: Any) -> bytes:
        return super().pack(self._numbers[value] if isinstance(value, bool) else value)

    def pack_all(self, values: Sequence[Any]) -> bytes:
        return super().pack_all([self._numbers[it] if isinstance(it, bool) else it for it in values])

    def unpack_all(self, data: bytes, offset: int, count: int) -> tuple[list[Any], int]:
        numbers, end = super().unpack_all(data, offset, count)
        return [self._meanings.get(it, it) for it in numbers] if self._meanings else numbers, end


class BitsItem(NumberItem):
    """A REAL in a list: its bits as a whole number. What is no whole number is taken as by names."""

    def __init__(self, kind: str, number: Number) -> None:
        super().__init__(kind, number)
        self._real = RealItem(kind)

    def pack(self, value: Any) -> bytes:
        return super().pack(value) if hasattr(value, "__index__") else self._real.pack(value)

    def pack_all(self, values: Sequence[Any]) -> bytes:
        return self._real.pack_all(values) if set(map(type, values)) == {float} else super().pack_all(values)


class RealItem(Item):
    """A REAL by names: a float, or what Python makes a float of, such as a whole number. A bool or a text is none."""

    def __init__(self, kind: str) -> None:
        super().__init__(kind, REAL_CODES[kind])

    def pack(self, value: Any) -> bytes:
        if isinstance(value, bool) or not hasattr(value, "__float__"):
            raise Misfit(f"{shown(value)} is no {self.kind}")
        try:
            return self._struct.pack(value)
        except (struct.error, OverflowError):
            raise Misfit(f"{shown(value)} is beyond {self.kind}") from None

    def pack_all(self, values: Sequence[Any]) -> bytes:
        try:
            if bool not in set(map(type, values)):
                return struct.pack(f">{len(values)}{self._code}", *values)
        except (struct.error, OverflowError):
            pass
        return super().pack_all(values)

    def unpack_all(self, data: bytes, offset: int, count: int) -> tuple[list[Any], int]:
        end = self._end(data, offset, count)
        return list(struct.unpack_from(f">{count}{self._code}", data, offset)), end


class PairItem(Item):
    """A pair of whole numbers, a time."""

    def __init__(self, kind: str, time: Time) -> None:
        super().__init__(kind, time.code)
        self._highest = time.highest
        self._make = PAIRS[kind]

    def pack(self, value: Any) -> bytes:
        if not isinstance(value, (tuple, list)) or len(value) != 2:
            raise Misfit(f"{shown(value)} is no {self.kind}, a pair of numbers")
        for half, highest in zip(value, self._highest):
            if not isinstance(half, int) or not 0 <= half <= highest:
                raise Misfit(f"{shown(value)} is no {self.kind}: {shown(half)} isn't in 0 to {highest}")
        return self._struct.pack(*value)

    def unpack_all(self, data: bytes, offset: int, count: int) -> tuple[list[Any], int]:
        end = self._end(data, offset, count)
        return list(map(self._make, self._struct.iter_unpack(data[offset:end]))), end


@functools.cache
def item_of(kind: str, as_: str | None, is_raw: bool) -> Item:
    """The values of a basic type that the key `as` may have read as another one: in a list, where they are raw, or by
    names."""
    basic = BASIC_TYPES[kind]
    if isinstance(basic, Time):
        return PairItem(kind, basic)
    name = as_ or kind
    if name in REAL_CODES:
        return BitsItem(name, basic) if is_raw else RealItem(name)
    if name in MEANINGS:
        return MeantItem(name, basic, MEANINGS[name], is_raw)
    return NumberItem(name, basic)
