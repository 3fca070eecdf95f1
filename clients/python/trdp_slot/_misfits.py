"""What is no value of a dataset, and where in it that is."""
from __future__ import annotations

from typing import NamedTuple


class Place(NamedTuple):
    """An element of a dataset, by its position from 0 and its name."""

    position: int
    name: str | None


class Misfit(Exception):
    """Something is no value. Its places are noted while it goes outwards: elements, and items of arrays by their
    positions."""

    def __init__(self, why: str) -> None:
        super().__init__(why)
        self._why = why
        self._places: list[Place | int] = []  # from the innermost one

    def within(self, place: Place | int) -> Misfit:
        """The same, seen from around that place."""
        self._places.append(place)
        return self

    def text(self, dataset: str, is_name: bool) -> str:
        """The way to it and the reason: `doors.state[2]: ..`, and without names `dataset 40, element 1, item 2: ..`.
        `is_name` is whether the dataset is called by its name."""
        way = dataset
        for place in reversed(self._places):
            if isinstance(place, int):
                way += f"[{place}]" if is_name else f", item {place}"
            elif place.name is None:
                way, is_name = f"{way}, element {place.position}", False
            else:
                way, is_name = way + (f".{place.name}" if is_name else f", {place.name}"), True
        return f"{way}: {self._why}"
