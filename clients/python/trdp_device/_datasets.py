"""Which datasets a node can have, and why others are left out."""
from __future__ import annotations

from collections.abc import Iterator, Mapping
from typing import NamedTuple

from trdp_slot import DEPTH_MOST, FIRST_DATASET, MD_MOST, PD_MOST

from ._device import DataSet, Element
from ._names import Names
from ._report import Report
from ._types import BASIC, COUNTS

DATASETS_MOST = 256
ELEMENTS_MOST = 256
SIZE_MOST = 0xFFFF


class Form(NamedTuple):
    """What a dataset is for a node: how deep it nests, the bytes of its zero value, and why the node cannot have it,
    with the line: None if it can."""

    depth: int
    zero_size: int
    why: tuple[int, str] | None


def forms_of(datasets: Mapping[int, DataSet]) -> dict[int, Form]:
    """The forms of all datasets, none of which nests in itself."""
    forms: dict[int, Form] = {}
    for first in datasets:
        left = [first]
        while left:
            number = left[-1]
            # A dataset that is an element many times is looked at once.
            parts = () if number in forms else parts_of(datasets[number])
            missing = {it for it in parts if it not in forms}
            left += missing
            if not missing:
                left.pop()
                if number not in forms:
                    forms[number] = form_of(datasets[number], forms)
    return forms


def parts_of(dataset: DataSet) -> Iterator[int]:
    """The numbers of the datasets that are elements of a dataset."""
    return (it.type for it in dataset.elements if isinstance(it.type, int))


def form_of(dataset: DataSet, forms: Mapping[int, Form]) -> Form:
    """The form of a dataset, by the forms of the datasets that are its elements."""
    depth = 1 + max((forms[it].depth for it in parts_of(dataset)), default=0)
    zero_size = sum(it.size * (forms[it.type].zero_size if isinstance(it.type, int) else BASIC[it.type].size)
                    for it in dataset.elements)
    whys = [*element_whys(dataset, forms), *dataset_whys(dataset, depth, zero_size)]
    # More bytes than a node takes are not counted: datasets that nest would multiply them without end.
    return Form(depth, min(zero_size, MD_MOST + 1), min(whys, default=None))


def dataset_whys(dataset: DataSet, depth: int, zero_size: int) -> Iterator[tuple[int, str]]:
    """Why a node cannot have a dataset as a whole."""
    if dataset.number < FIRST_DATASET:
        yield dataset.line, f": a dataset's number is at least {FIRST_DATASET}"
    if not 0 < len(dataset.elements) <= ELEMENTS_MOST:
        yield dataset.line, f": a dataset has 1 to {ELEMENTS_MOST} elements, and not {len(dataset.elements)}"
    if depth > DEPTH_MOST:
        yield dataset.line, f": datasets nest at most {DEPTH_MOST} deep"
    if zero_size > MD_MOST:
        yield dataset.line, f": a dataset has at most {MD_MOST} bytes"


def element_whys(dataset: DataSet, forms: Mapping[int, Form]) -> Iterator[tuple[int, str]]:
    """Why a node cannot have the elements of a dataset."""
    before: Element | None = None
    for index, element in enumerate(dataset.elements):
        where = f", element {index}: "
        if element.size > SIZE_MOST:
            yield element.line, f"{where}an array has at most {SIZE_MOST} values"
        if element.size == 0 and not (before and before.size == 1 and before.type in COUNTS):
            yield element.line, f"{where}no count is directly before this array"
        if isinstance(element.type, int) and forms[element.type].why:
            yield element.line, f"{where}dataset {element.type} cannot be said here"
        before = element


class NamedDataset(NamedTuple):
    """A dataset that a node has, with the names of it and of its elements; "" for one without."""

    dataset: DataSet
    name: str
    elements: tuple[str, ...]

    def is_count(self, index: int) -> bool:
        """Whether an element counts the array behind it."""
        behind = self.dataset.elements[index + 1:index + 2]
        return bool(behind) and behind[0].size == 0

    def type_of(self, index: int) -> str | int:
        """The type that an element has for a node: a count is an unsigned number."""
        kind = self.dataset.elements[index].type
        if isinstance(kind, int):
            return kind
        return COUNTS[kind] if self.is_count(index) else BASIC[kind].type

    def as_of(self, index: int) -> str:
        """The key `as` of an element; "" for none."""
        kind = self.dataset.elements[index].type
        return "" if isinstance(kind, int) or self.is_count(index) else BASIC[kind].as_


class Datasets:
    """The datasets of a device that a node has: those of its telegrams, as far as it can have them."""

    def __init__(self, datasets: Mapping[int, DataSet], report: Report) -> None:
        self._all = datasets
        self._forms = forms_of(datasets)
        self._report = report
        self._taken: set[int] = set()
        self._used: set[int] = set()  # by a telegram, though the node may not have them

    def take(self, number: int, line: int, is_process: bool) -> int:
        """The number of the dataset that a telegram on that line has here: 0 if the node cannot have its own."""
        if number == 0:
            return 0
        self._use(number)
        if self._forms[number].why:
            return 0
        within = self._within(number)
        if is_process and self._forms[number].zero_size > PD_MOST:
            self._report.loss(line, f"dataset {number} is longer than process data carries, so dataset 0 is carried")
            return 0
        if len(self._taken | within) > DATASETS_MOST:
            self._report.loss(line, f"a node has at most {DATASETS_MOST} datasets, so dataset 0 is carried, and not "
                                    f"{number}")
            return 0
        self._taken |= within
        return number

    def finish(self) -> list[NamedDataset]:
        """The datasets that the node has, in the order of the file. Notes those that no telegram uses."""
        names = Names(self._report)
        found = []
        for number, dataset in self._all.items():
            if number in self._taken:
                found.append(self._named(dataset, names))
            elif number not in self._used:
                self._report.note(dataset.line, f"dataset {number} is left out, since no telegram uses it")
        return found

    def _named(self, dataset: DataSet, names: Names) -> NamedDataset:
        """A dataset with its names. Notes each count whose type is another one here."""
        name = names.take_noted(dataset.name, dataset.line) if dataset.name else ""
        within = Names(self._report)
        elements = tuple(within.take_noted(it.name, it.line) if it.name else "" for it in dataset.elements)
        named = NamedDataset(dataset, name, elements)
        for index, element in enumerate(dataset.elements):
            kind, where = named.type_of(index), f"dataset {dataset.number}, element {index}: "
            if named.is_count(index) and kind != element.type:
                self._report.note(element.line, f"{where}the count of type {element.type} is {kind}")
            if element.scale == 0:
                self._report.note(element.line, f"{where}a scale of 0 is left out")
        return named

    def _use(self, number: int) -> None:
        """Notes that a dataset is used, and reports each one in it that the node cannot have."""
        left = [number]
        while left:
            it = left.pop()
            if it not in self._used:
                self._used.add(it)
                left += parts_of(self._all[it])
                why = self._forms[it].why
                if why:
                    self._report.loss(why[0], f"dataset {it}{why[1]}, so its telegrams carry dataset 0")

    def _within(self, number: int) -> set[int]:
        """A dataset and all that are in it; if these are too many for a node, some of them."""
        found: set[int] = set()
        left = [number]
        while left and len(found) <= DATASETS_MOST:
            it = left.pop()
            if it not in found:
                found.add(it)
                left += parts_of(self._all[it])
        return found
