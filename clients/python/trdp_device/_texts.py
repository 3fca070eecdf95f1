"""The texts of the files that are written."""
from __future__ import annotations

import json
from collections.abc import Iterator

from ._datasets import NamedDataset
from ._importing import CONTROL_ADDRESS
from ._node import Node, TelegramTable
from ._slots import Slot


def node_text(node: Node) -> str:
    """The node's configuration, node.toml."""
    parts = [[f"# The device {node.host} at its interface {node.interface}, written by trdp-import."], node_table(node)]
    parts += [*map(slot_table, node.slots), *map(dataset_table, node.datasets)]
    parts += map(telegram_table, node.telegrams.values())
    return "\n".join("".join(f"{it}\n" for it in part) for part in parts)


def node_table(node: Node) -> list[str]:
    """The table of the node itself."""
    groups = ", ".join(f'"{it}"' for it in node.groups)
    return ["[node]", f'address = "{node.address}"', f"pd_port = {node.process_port}", f"md_port = {node.message_port}",
            f"operator_port = {node.operator_port}", f'control_address = "{CONTROL_ADDRESS}"', f"groups = [{groups}]",
            f"ttl = {node.qualities.process.ttl}"]


def slot_table(slot: Slot) -> list[str]:
    """The table of a slot."""
    quotas = [f"{key} = {quota}" for key, quota in slot.quotas.items()]
    return ["[[slot]]", f"name = {text(slot.name)}", *quotas, f"control_port = {slot.port}"]


def dataset_table(named: NamedDataset) -> list[str]:
    """The table of a dataset."""
    name = [f"name = {text(named.name)}"] if named.name else []
    elements = (f"    {{ {', '.join(element_keys(named, index))} }}," for index in range(len(named.elements)))
    return ["[[dataset]]", f"id = {named.dataset.number}", *name, "element = [", *elements, "]"]


def element_keys(named: NamedDataset, index: int) -> Iterator[str]:
    """The keys of an element."""
    element, kind, as_ = named.dataset.elements[index], named.type_of(index), named.as_of(index)
    if named.elements[index]:
        yield f"name = {text(named.elements[index])}"
    yield f"type = {kind}" if isinstance(kind, int) else f"type = {text(kind)}"
    if as_:
        yield f"as = {text(as_)}"
    if element.size != 1:
        yield f"size = {element.size}"
    if element.unit:
        yield f"unit = {text(element.unit)}"
    if element.scale not in (0.0, 1.0):
        yield f"scale = {number(element.scale)}"
    if element.offset:
        yield f"offset = {number(element.offset)}"


def telegram_table(table: TelegramTable) -> list[str]:
    """The table of a comId."""
    times = [f"{key} = {time}" for key, time in table.times()]
    return ["[[telegram]]", f"com_id = {table.com_id}", f"dataset = {table.dataset}", f"name = {text(table.name)}",
            *times]


def text(value: str) -> str:
    """A text of TOML."""
    return json.dumps(value, ensure_ascii=False).replace("\x7f", "\\u007f")


def number(value: float) -> str:
    """A number of TOML: a whole one is written as such."""
    return str(int(value)) if value.is_integer() and abs(value) < 1 << 53 else repr(value)


def lines_text(slot: Slot) -> str:
    """The calls of a slot, SLOT.lines."""
    lines = [f"# The calls of the application {slot.name}, written by trdp-import."]
    lines += (line for call in slot.calls for line in call.lines)
    return "".join(f"{it}\n" for it in lines)


def qos_text(node: Node) -> str:
    """The rules of DSCP and TTL, qos.nft, which replace those of an earlier import."""
    table = f"table inet trdpd_{str(node.address).replace('.', '_')}"
    rules = "".join(f"        ip saddr {node.address} {it}\n" for it in node.qualities.rules())
    return f"""\
# DSCP and TTL of what the device {node.host} sends at its interface {node.interface}, written by trdp-import.
{table}
delete {table}
{table} {{
    chain output {{
        type filter hook output priority mangle; policy accept;
{rules}    }}
}}
"""
