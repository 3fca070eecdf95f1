"""What a configuration says of datasets, elements, slots and telegrams for programs and people: names and units.

The node ignores these keys: at an element `name`, `unit`, `scale`, `offset` and `as`, at a dataset and a slot `name`,
and all tables `[[telegram]]`. `trdpd check` warns of those that are wrong, and here each of these is a ConfigFault. A
name or a unit is a text without control characters, and a name isn't empty.
"""
from __future__ import annotations

import math
import unicodedata
from collections.abc import Mapping, Sequence
from dataclasses import dataclass
from typing import Any

from ._faults import ConfigFault
from ._limits import U32_MOST
from ._shown import shown
from ._tables import config_number, tables
from ._types import AS_TYPES, BASIC_TYPES, FIRST_DATASET, REAL_TYPES, TYPE_NAMES, Element, is_count

ELEMENTS_MOST = 256


@dataclass(frozen=True)
class TelegramTable:
    """A table `[[telegram]]`: what a file says of the telegrams of a comId. A time that it doesn't say is None."""

    com_id: int
    dataset: int
    """The number of the dataset that the payload is; 0 for bytes."""
    name: str | None = None
    cycle_us: int | None = None
    """How often a publisher sends it."""
    time_us: int | None = None
    """The supervision time of a subscription."""
    reply_us: int | None = None
    """How long a request waits for its replies."""
    confirm_us: int | None = None
    """How long a query waits for its confirmation."""


@dataclass(frozen=True)
class DatasetTable:
    """A table `[[dataset]]`."""

    number: int
    name: str | None
    elements: tuple[Element, ...]


def dataset_tables(config: Mapping[str, Any]) -> list[DatasetTable]:
    """The datasets of a configuration, in its order."""
    found: dict[int, DatasetTable] = {}
    for index, table in enumerate(tables(config, "dataset")):
        number = config_number(table, "id", FIRST_DATASET, U32_MOST, None, f"dataset[{index}]: ")
        if number in found:
            raise ConfigFault(f"dataset {number} is there twice")
        where, of = f"dataset {number}", tables(table, "element")
        if not 0 < len(of) <= ELEMENTS_MOST:
            raise ConfigFault(f"{where} has {len(of)} elements, and not 1 to {ELEMENTS_MOST}")
        elements = tuple(element_of(it, f"{where}, element {at}: ") for at, it in enumerate(of))
        found[number] = DatasetTable(number, name_at(table, f"{where}: "), elements)
    return list(found.values())


def telegram_tables(config: Mapping[str, Any]) -> list[TelegramTable]:
    """What a configuration says of comIds, in its order."""
    found: dict[int, TelegramTable] = {}
    for index, table in enumerate(tables(config, "telegram")):
        com_id = config_number(table, "com_id", 0, U32_MOST, None, f"telegram[{index}]: ")
        if com_id in found:
            raise ConfigFault(f"comId {com_id} is there twice")
        where = f"comId {com_id}: "
        times = (time_at(table, key, where) for key in ("cycle_us", "time_us", "reply_us", "confirm_us"))
        found[com_id] = TelegramTable(com_id, config_number(table, "dataset", 0, U32_MOST, None, where),
                                      name_at(table, where), *times)
    return list(found.values())


def slot_names(config: Mapping[str, Any]) -> list[str | None]:
    """The name of each slot of a configuration; None for one without."""
    return [name_at(table, f"slot {number}: ") for number, table in enumerate(tables(config, "slot"))]


def element_of(table: Mapping[str, Any], where: str) -> Element:
    """The element of a dataset that a table says; `where` is how the table is called."""
    as_ = table.get("as")
    kind = type_of(table, where)
    if table["type"] == 1 and as_ == "ANTIVALENT8":
        kind = "BITSET8"
    return Element(kind, config_number(table, "size", 0, 0xFFFF, 1, where), name_at(table, where), as_,
                   text_at(table, "unit", where) or "", factor_at(table, "scale", 1.0, where),
                   factor_at(table, "offset", 0.0, where))


def type_of(table: Mapping[str, Any], where: str) -> str | int:
    """The type of an element: the name of a basic type, or the number of a dataset."""
    kind = table.get("type")
    if isinstance(kind, bool) or not isinstance(kind, (int, str)):
        raise ConfigFault(f"{where}type is {shown(kind)}, and no name or number")
    if kind in REAL_TYPES:
        real = REAL_TYPES[kind]
        raise ConfigFault(f'{where}the node takes no {kind}: write type = "{AS_TYPES[real]}", as = "{real}"')
    name: str | int = TYPE_NAMES.get(kind, kind)
    if not (name in BASIC_TYPES or isinstance(name, int) and FIRST_DATASET <= name <= U32_MOST):
        raise ConfigFault(f"{where}there is no type {shown(kind)}")
    return name


def name_at(table: Mapping[str, Any], where: str) -> str | None:
    """The name in a table; None where it has none."""
    name = text_at(table, "name", where)
    if name == "":
        raise ConfigFault(f"{where}name is empty")
    return name


def text_at(table: Mapping[str, Any], key: str, where: str) -> str | None:
    """The text at a key of a table; None where it isn't there."""
    text = table.get(key)
    if text is None or isinstance(text, str) and not any(unicodedata.category(it) == "Cc" for it in text):
        return text
    raise ConfigFault(f"{where}{key} is {shown(text)}, and no text without control characters")


def time_at(table: Mapping[str, Any], key: str, where: str) -> int | None:
    """The time at a key of a table, in microseconds; None where it isn't there."""
    return config_number(table, key, 0, U32_MOST, None, where) if key in table else None


def factor_at(table: Mapping[str, Any], key: str, default: float, where: str) -> float:
    """The number at a key of a table, by which people are shown another one."""
    number = table.get(key, default)
    try:
        if isinstance(number, (int, float)) and not isinstance(number, bool) and math.isfinite(number):
            if number == 0 and key == "scale":
                raise ConfigFault(f"{where}scale is 0")
            return float(number)
    except OverflowError:
        pass
    raise ConfigFault(f"{where}{key} is {shown(number)}, and no finite number")


def check_names(number: int, elements: Sequence[Element]) -> None:
    """Raises ConfigFault where two elements of a dataset have one name, or one can't be read as it says."""
    names: set[str] = set()
    for index, element in enumerate(elements):
        where = f"dataset {number}, element {index}: "
        if element.name in names:
            raise ConfigFault(f"{where}an earlier element has the name {shown(element.name)}, too")
        if element.name is not None:
            names.add(element.name)
        if element.as_ is not None:
            check_as(element, is_count(elements, index), where)


def check_as(element: Element, counts: bool, where: str) -> None:
    """Raises ConfigFault where an element can't be read as its key `as` says."""
    if not isinstance(element.as_, str) or element.as_ not in AS_TYPES:
        raise ConfigFault(f"{where}as is {shown(element.as_)}, and none of {', '.join(AS_TYPES)}")
    if element.type != AS_TYPES[element.as_]:
        raise ConfigFault(f"{where}{element.as_} stands over {AS_TYPES[element.as_]}, and not over {element.type}")
    if counts:
        raise ConfigFault(f"{where}it counts an array, and can't be {element.as_}")
