"""The datasets of a configuration."""
from __future__ import annotations

import copy
import datetime
import os
import struct
from collections.abc import Callable, Mapping, Sequence
from typing import Any, TypeVar, overload

from ._codecs import Codecs
from ._faults import ConfigFault, DoesNotFit
from ._indications import Asked, Notified, Replied
from ._limits import MD_MOST
from ._misfits import Misfit
from ._names import TelegramTable, check_names, dataset_tables, slot_names, telegram_tables
from ._records import must_be_class
from ._shown import shown
from ._tables import faults_of, read_toml
from ._timedates import moment
from ._types import BASIC_TYPES, COUNT_TYPES, DEPTH_MOST, Element
from ._unpacking import Unpacker

_Record = TypeVar("_Record")


class Datasets:
    """The datasets of a configuration, and their values.

    A value of a dataset is a list with one entry for each element, in order: a number, a pair (a tuple) for a
    TIMEDATE48 or a TIMEDATE64, a list for a value of another dataset, and for an element whose size isn't 1 a list
    of these. Bytes are a value of dataset 0. For `{UINT8, UINT16 array of size 0}` it is [2, [700, 800]].

    Where all elements but counts have names, a dict by these names is a value, too, and a count may be left out. With
    `named`, `unpack` returns dicts (a list where an element has no name), and in them what the numbers mean: a bool, a
    float or a text. Instances of dataclasses that `trdp-structs` wrote are as dicts.

    `elements` has the elements of each dataset, `dataset_names` the names of those that have one, `telegrams` what the
    tables `[[telegram]]` of a file say of comIds, and `com_ids` of each comId which dataset its payload is.
    `slot_names` has the name of each slot, or None. The node looks at no name, and at no table `[[telegram]]`.
    """

    def __init__(self, elements: Mapping[int, Sequence[Element]], com_ids: Mapping[int, int] | None = None, *,
                 dataset_names: Mapping[int, str] | None = None, telegrams: Sequence[TelegramTable] = (),
                 slot_names: Sequence[str | None] = (), named: bool = False) -> None:
        """Datasets by their numbers, with their elements. `named` is whether their values are returned by names. Raises
        ConfigFault where they don't fit together."""
        self.elements = {number: tuple(of) for number, of in elements.items()}
        self.dataset_names = dict(dataset_names or {})
        only = (TelegramTable(com_id, number) for com_id, number in (com_ids or {}).items())
        self.telegrams = {it.com_id: it for it in (*only, *telegrams)}
        self.com_ids = {it.com_id: it.dataset for it in self.telegrams.values()}
        self.slot_names = tuple(slot_names)
        self.named = named
        self._codecs = Codecs(self.elements)
        self._zero_sizes: dict[int, int] = {}
        for number, of in self.elements.items():
            self._check(number, of)
            check_names(number, of)
        self._check_depth()
        for number in self.elements:
            if self.zero_size(number) > MD_MOST:
                raise ConfigFault(f"dataset {number}: its zero value has more than {MD_MOST} bytes")
        for com_id, number in self.com_ids.items():
            if number and number not in self.elements:
                raise ConfigFault(f"comId {com_id}: there is no dataset {number}")

    @classmethod
    def from_toml(cls, path: str | os.PathLike[str], *, named: bool = False) -> Datasets:
        """The datasets of a node's configuration, or of any other file that has `[[dataset]]` tables as
        examples/node.toml explains them. Raises ConfigFault, which names the file, OSError, or
        tomllib.TOMLDecodeError."""
        with faults_of(path):
            return cls.from_tables(read_toml(path), named=named)

    @classmethod
    def from_tables(cls, config: Mapping[str, Any], *, named: bool = False) -> Datasets:
        """The same of the tables of such a file."""
        found = dataset_tables(config)
        return cls({it.number: it.elements for it in found}, telegrams=telegram_tables(config),
                   dataset_names={it.number: it.name for it in found if it.name is not None},
                   slot_names=slot_names(config), named=named)

    def _check(self, number: int, elements: Sequence[Element]) -> None:
        counts = False
        for index, element in enumerate(elements):
            if isinstance(element.type, int) and element.type not in self.elements:
                raise ConfigFault(f"dataset {number}, element {index}: there is no dataset {element.type}")
            if element.size == 0 and not counts:
                raise ConfigFault(f"dataset {number}, element {index}: no UINT8, UINT16 or UINT32 before it counts it")
            counts = element.size == 1 and element.type in COUNT_TYPES

    def _check_depth(self) -> None:
        within: set[int] = set()  # the datasets that nest no deeper than the round
        for _ in range(DEPTH_MOST):
            within = {number for number, of in self.elements.items()
                      if all(it.type in within for it in of if isinstance(it.type, int))}
        if len(within) < len(self.elements):
            raise ConfigFault(f"datasets nest deeper than {DEPTH_MOST}")

    def __contains__(self, number: int) -> bool:
        """Whether there is a dataset of that number. Bytes of any kind are dataset 0, which always is."""
        return number == 0 or number in self.elements

    def zero_size(self, number: int) -> int:
        """How many bytes the zero value of a dataset has: each number in it is 0, and each array of size 0 empty."""
        if number not in self._zero_sizes:
            sizes = (it.size * self._zero_size_of(it.type) for it in self.elements[number])
            self._zero_sizes[number] = sum(sizes)
        return self._zero_sizes[number]

    def _zero_size_of(self, kind: str | int) -> int:
        return self.zero_size(kind) if isinstance(kind, int) else struct.calcsize(">" + BASIC_TYPES[kind].code)

    def zero(self, number: int) -> Any:
        """The zero value of a dataset, which a subscription shows before its first telegram; b"" for dataset 0."""
        return b"" if number == 0 else self.unpack(number, bytes(self.zero_size(number)))

    def pack(self, number: int, value: Any, most: int = MD_MOST) -> bytes:
        """The bytes of a value of a dataset, as the node has them: packed, with the highest byte first. The value is a
        list, a dict by names, or an instance of a dataclass that `trdp-structs` wrote, and so are those in it.

        Raises DoesNotFit, with the place in the dataset, where the value isn't one of it, or has more bytes than
        `most`, and KeyError where there is no such dataset."""
        if number == 0:
            if not isinstance(value, (bytes, bytearray, memoryview)):
                raise DoesNotFit(f"dataset 0: {shown(value)} is no bytes")
            data = bytes(value)
        else:
            packer = self._codecs.packer(number)
            try:
                data = packer.pack(value)
            except Misfit as fault:
                raise self._no_value(number, fault) from None
        if len(data) > most:
            raise DoesNotFit(f"{self.title(number)}: the value has {len(data)} bytes, and at most {most} are carried")
        return data

    @overload
    def unpack(self, number: int, data: bytes, *, into: None = None) -> Any: ...

    @overload
    def unpack(self, number: int, data: bytes, *, into: type[_Record]) -> _Record: ...

    def unpack(self, number: int, data: bytes, *, into: type[Any] | None = None) -> Any:
        """The value of a dataset that these bytes are; bytes for dataset 0. It is a list, or by names where `named` is
        set, or an instance of `into`, a dataclass that `trdp-structs` wrote; bytes of dataset 0 are a value of its
        dataset, then.

        Raises DoesNotFit, with the place in the dataset, where the bytes are no value: too few, or some left over; or
        where `into` is of another dataset, or of one that isn't known here. TypeError where it is no such class, and
        KeyError where there is no such dataset."""
        if into is not None:
            must_be_class(into)
            number = number or into.trdp_dataset
            if number not in self:
                raise DoesNotFit(f"dataset {number}: it isn't known here, so that {into.__name__} can't be filled")
        return bytes(data) if number == 0 else self._whole(number, data, lambda: self._unpacker(number, into))

    def _whole(self, number: int, data: bytes, of: Callable[[], Unpacker]) -> Any:
        """What an unpacker makes of all these bytes. Raises DoesNotFit, also where there is no unpacker for it."""
        try:
            value, end = of().unpack(bytes(data), 0)
        except Misfit as fault:
            raise self._no_value(number, fault) from None
        if end != len(data):
            raise DoesNotFit(f"{self.title(number)}: {len(data) - end} bytes are left over")
        return value

    def _unpacker(self, number: int, into: type[Any] | None) -> Unpacker:
        if into is not None:
            return self._codecs.by_fields(number, into)
        return self._codecs.by_names(number) if self.named else self._codecs.lists(number)

    def _no_value(self, number: int, fault: Misfit) -> DoesNotFit:
        """A fault, with its place in the dataset."""
        return DoesNotFit(fault.text(self.title(number), number in self.dataset_names))

    def title(self, number: int) -> str:
        """How people call a dataset: by its name, or where it has none by its number."""
        return self.dataset_names.get(number, f"dataset {number}")

    def reading(self, number: int, data: bytes) -> str:
        """What people read of a value of a dataset: `{state: [0, 2], speed: 25.3 km/h (253)}`. It has the names and
        units, `raw * scale + offset` where an element has these, a bool, a float or a text, and in brackets behind it
        the raw number where that is another one. Without names and `as` it is the list. Raises what `unpack` raises."""
        return data.hex() if number == 0 else str(self._whole(number, data, lambda: self._codecs.readings(number)))

    def of_message(self, told: Notified | Asked | Replied, *, into: type[Any] | None = None) -> Any:
        """The value of a message that the node reports, by the dataset of its comId; its bytes where no table
        `[[telegram]]` says one, and of an error, which has no value. The node doesn't look at it: raises DoesNotFit
        where it is none, and TypeError where an indication is no message."""
        if not isinstance(told, (Notified, Asked, Replied)):
            raise TypeError(f"{shown(told)} is no message")
        is_error = isinstance(told, Replied) and told.kind == "Me"
        return self.unpack(0 if is_error else self.com_ids.get(told.com_id, 0), told.payload, into=into)

    @staticmethod
    def time(value: int | tuple[int, int]) -> datetime.datetime:
        """The moment in UTC that a TIMEDATE32, 48 or 64 is, a number or a pair, as `unpack` returns it. A pair of the
        program's own is one of a TIMEDATE64, seconds and microseconds, unless it is a TimeDate48."""
        return moment(value)

    def by_names(self) -> Datasets:
        """The same datasets, whose values are returned by names."""
        same = copy.copy(self)
        same.named = True
        return same
