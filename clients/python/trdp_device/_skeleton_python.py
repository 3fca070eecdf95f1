"""The application of a slot in Python, which puts zeros and prints what it hears."""
from __future__ import annotations

import pprint
import textwrap
from typing import Any

from trdp_slot import Datasets, is_count

from ._calls import Call, Kind
from ._skeleton import made_calls, remarks
from ._slots import Slot

LITERAL_MOST = 2000
"""How long a value is at most that is written out."""

PROGRAM = '''\
#!/usr/bin/env python3
"""The application {name} of slot {number}: it puts zeros, and prints what it hears. Written by trdp-import.

    python3 {name}_skeleton.py [CONTROLS]

The node has to run: trdpd daemon node.toml. CONTROLS is its folder of control sockets, if it has one.
"""
from __future__ import annotations

import pathlib
import sys

from trdp_slot import (Alive, Asked, Closed, Confirmed, Handle, Indication, Lost, Notified, Overrun, Replied, Restarted,
                       Silent, Slot)

HERE = pathlib.Path(__file__).resolve().parent
KINDS = (Alive, Asked, Closed, Confirmed, Lost, Notified, Overrun, Replied, Restarted, Silent)
SECOND = 1_000_000
{remarks}

def put_zeros(slot: Slot, made: dict[str, Handle]) -> None:
    """Gives each publisher a value. Before that it sends nothing."""
{puts}

def show(slot: Slot, made: dict[str, Handle]) -> None:
    """Prints what each subscription shows."""
    for name, handle in made.items():
        if handle.kind == "subscription":
            print(name, slot.get(handle), flush=True)


def hear(told: Indication) -> None:
    """Prints what the node reports."""
    print(told, flush=True)


def main() -> None:
    controls = sys.argv[1] if len(sys.argv) > 1 else None
    with Slot(HERE / "node.toml", {number}, controls=controls, named=True, restore=True) as slot:
        for kind in KINDS:
            slot.on(kind, hear)
        made = slot.declare(HERE / "{name}.lines")
        put_zeros(slot, made)
        while True:
            show(slot, made)
            slot.run(SECOND)


if __name__ == "__main__":
    main()
'''


def python_text(slot: Slot, number: int, datasets: Datasets) -> str:
    """The program of a slot."""
    found = remarks(slot)
    head = "\n# What has no line in the file of this slot:\n" if found else ""
    head += "".join(f"# {it}\n" for it in found)
    puts = [put_line(it, datasets) for it in made_calls(slot, Kind.PUBLISHER)] or ["pass\n"]
    return PROGRAM.format(name=slot.name, number=number, remarks=head, puts="".join(f"    {it}" for it in puts))


def put_line(call: Call, datasets: Datasets) -> str:
    """The line that gives a publisher zeros. They are written out, so that they can be changed, unless they are
    many."""
    zero = without_counts(datasets, call.dataset, datasets.zero(call.dataset))
    value = pprint.pformat(zero, width=100, sort_dicts=False)
    if len(value) > LITERAL_MOST:
        value = f"slot.datasets.zero({call.dataset})"
    if "\n" in value:
        value = "\n" + textwrap.indent(value, 8 * " ")
    return f'slot.put(made["{call.name}"], {value})\n'


def without_counts(datasets: Datasets, number: int, value: Any) -> Any:
    """A value by names without the counts of its arrays, so that an array can be changed alone."""
    if not isinstance(value, dict):
        return value
    elements = datasets.elements[number]
    found = {}
    for index, element in enumerate(elements):
        if element.name in value and not is_count(elements, index):
            part = value[element.name]
            if isinstance(element.type, int):
                within = [without_counts(datasets, element.type, it) for it in (part if element.size != 1 else [part])]
                part = within if element.size != 1 else within[0]
            found[element.name] = part
    return found
