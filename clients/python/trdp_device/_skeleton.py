"""What the applications in Python and in C have in common."""
from __future__ import annotations

import tomllib
from collections.abc import Iterator

from trdp_slot import Datasets

from ._calls import Call, Kind
from ._node import Node
from ._slots import Slot
from ._texts import node_text


def datasets_of(node: Node) -> Datasets:
    """The datasets of a node, as a client reads them."""
    return Datasets.from_tables(tomllib.loads(node_text(node)), named=True)


def made_calls(slot: Slot, kind: Kind) -> Iterator[Call]:
    """The calls of a kind that a slot's file makes."""
    return (it for it in slot.calls if it.kind is kind and it.is_made)


def remarks(slot: Slot) -> list[str]:
    """What of a slot's file is no call: requests, and calls that are remarks. Without the sign of a remark."""
    found = []
    for call in slot.calls:
        if call.kind is Kind.CALLER:
            found += [it.removeprefix("# ") for it in call.lines]
        elif not call.is_made:
            found.append(f"{call.name}: {call.lines[-1].removeprefix('# ')}")
    return found
