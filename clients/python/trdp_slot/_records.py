"""Dataclasses of datasets, as `trdp-structs --python` writes them: `put` and `pack` take an instance, and
`unpack(.., into=Doors)` fills one.

A class has a field for each element, and three class variables. Nothing of a field's name, its
type or its default is read here; only these variables are:

    @dataclass
    class Doors:
        trdp_dataset: ClassVar[int] = 5002
        trdp_elements: ClassVar[Mapping[str, str | int]] = {"state": "state", "class_": "class", "element_3": 3}
        trdp_classes: ClassVar[Mapping[str, type[Any]]] = {"class_": Lamp}

        state: list[int]
        class_: list[Lamp]
        element_3: float

- `trdp_dataset` is the number of the dataset.
- `trdp_elements` has each field, with the name of its element as the configuration has it, or with its position in the
  dataset, from 0, where it has no name.
- `trdp_classes` has the fields whose elements are of another dataset, single or an array, with the class of that one.

An element without a field has to be a count. A count that has none is the length of its array. One that has a field
has to agree with the array, so a class is easier to use without it.

What a field holds is what a value by names has there: an int; a bool for BOOL8 and ANTIVALENT8, or an int where it is
neither; a float for REAL32 and REAL64; a `TimeDate48` or a `TimeDate64`, which are pairs of ints; an instance for a
dataset; a list of these for an array; and a str for an array of CHAR8 or UTF16, or a list of ints where the bytes are
no text.
"""
from __future__ import annotations

from collections.abc import Sequence
from typing import Any, TypeGuard

from ._misfits import Misfit
from ._shown import shown
from ._types import Element, is_count


def is_record(value: object) -> bool:
    """Whether a value is an instance of such a class."""
    return is_record_class(type(value))


def is_record_class(kind: object) -> TypeGuard[type[Any]]:
    """Whether this is such a class."""
    return isinstance(kind, type) and isinstance(getattr(kind, "trdp_dataset", None), int)


def must_be_class(into: object) -> None:
    """Raises TypeError where this is no such class."""
    if not is_record_class(into):
        raise TypeError(f"into is {shown(into)}, and no dataclass of a dataset")


def class_of(kind: type[Any], field: str | None) -> type[Any]:
    """The class of the values of a field whose element is of another dataset. Raises Misfit where it isn't said."""
    inner = kind.trdp_classes.get(field)
    if not is_record_class(inner):
        raise Misfit(f"{kind.__name__}.trdp_classes has no class for {field}")
    return inner


def fields_of(kind: type[Any], number: int, elements: Sequence[Element]) -> list[str | None]:
    """The field of each element of a dataset; None for a count without one. Raises Misfit where the class is of another
    dataset, or of one that had other elements."""
    if kind.trdp_dataset != number:
        raise Misfit(f"{kind.__name__} is of dataset {kind.trdp_dataset}")
    indexes: dict[str | int, int] = {index: index for index in range(len(elements))}
    indexes.update((it.name, index) for index, it in enumerate(elements) if it.name is not None)
    fields: list[str | None] = [None] * len(elements)
    for field, key in kind.trdp_elements.items():
        if key not in indexes:
            raise Misfit(f"there is no element {shown(key)}, which {kind.__name__}.{field} is of")
        fields[indexes[key]] = field
    for index, field in enumerate(fields):
        if field is None and not is_count(elements, index):
            element = index if elements[index].name is None else shown(elements[index].name)
            raise Misfit(f"{kind.__name__} has no field of element {element}")
    return fields
