"""A configuration, and the datasets of it."""
from __future__ import annotations

import tomllib
from typing import Any

from .texts import read_ip

KINDS = ("publisher", "subscription", "requester", "listener", "caller", "replier")

# Bytes of a number of each type, by the type's number; the types' names.
WIDTHS = {1: 1, 2: 1, 3: 2, 4: 1, 5: 2, 6: 4, 7: 8, 8: 1, 9: 2, 10: 4, 11: 8, 14: 4, 15: 6, 16: 8}
NAMES = {
    "BOOL8": 1, "BITSET8": 1, "CHAR8": 2, "UTF16": 3, "INT8": 4, "INT16": 5, "INT32": 6, "INT64": 7, "UINT8": 8,
    "UINT16": 9, "UINT32": 10, "UINT64": 11, "TIMEDATE32": 14, "TIMEDATE48": 15, "TIMEDATE64": 16,
}  # fmt: skip


class Datasets:
    """The datasets of a configuration. A dataset is a list of elements, each a type and a size."""

    def __init__(self, tables: list[dict[str, Any]]) -> None:
        self.elements: dict[int, list[tuple[int, int]]] = {}
        for table in tables:
            rows = table["element"]
            self.elements[table["id"]] = [(NAMES.get(row["type"], row["type"]), row.get("size", 1)) for row in rows]

    def has(self, dataset: int) -> bool:
        return dataset == 0 or dataset in self.elements

    def zero_size(self, dataset: int) -> int:
        """The bytes of a value whose numbers are 0 and whose counted arrays are empty; none of dataset 0."""
        if dataset == 0:
            return 0
        return sum(size * (WIDTHS.get(kind) or self.zero_size(kind)) for kind, size in self.elements[dataset])

    def end(self, dataset: int, data: bytes, at: int) -> int | None:
        """Where the value of a dataset ends that begins there; None where the bytes are too few."""
        count = 0
        for kind, size in self.elements[dataset]:
            times = size or count
            if width := WIDTHS.get(kind):
                count = int.from_bytes(data[at:at + width], "big")
                at += times * width
            else:
                for _ in range(times):
                    behind = self.end(kind, data, at)
                    if behind is None:
                        return None
                    at = behind
            if at > len(data):
                return None
        return at

    def fits(self, dataset: int, data: bytes) -> bool:
        """Whether the bytes are one value of the dataset; any are of dataset 0."""
        return dataset == 0 or self.end(dataset, data, 0) == len(data)


class Settings:
    """What slots know of a configuration that is good, and the quotas of each."""

    def __init__(self, text: str) -> None:
        table = tomllib.loads(text)
        self.address = read_ip(table["node"]["address"])
        self.pd_port = table["node"].get("pd_port", 17224)
        self.md_port = table["node"].get("md_port", 17225)
        self.quotas: list[tuple[int, ...]] = [
            tuple(slot.get(kind + "s", 0) for kind in KINDS) for slot in table["slot"]]
        self.datasets = Datasets(table.get("dataset", []))
