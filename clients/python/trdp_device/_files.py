"""The files of a node, made of a device configuration."""
from __future__ import annotations

from ._hosts import Hosts
from ._importing import make_node
from ._node import Node, Wanted
from ._reading import read_device
from ._report import Report
from ._shown import shown
from ._skeleton import datasets_of
from ._skeleton_c import c_text
from ._skeleton_python import python_text
from ._texts import lines_text, node_text, qos_text
from ._tree import read_tree
from ._unknown import note_unknown


def import_device(data: bytes, wanted: Wanted, hosts: Hosts, report: Report) -> Node:
    """The node that a device configuration becomes. Raises DeviceFault if it is none, and WrongWords if the command
    line asks for what it does not have."""
    tree = read_tree(data)
    device = read_device(tree.root)
    for namespace, line in tree.foreign.items():
        report.note(line, f"the namespace {shown(namespace)} is left out")
    note_unknown(tree.root, report)
    return make_node(device, wanted, hosts, report)


def files_of(node: Node) -> dict[str, str]:
    """The names of the files that are written, and their texts."""
    files = {"node.toml": node_text(node), "qos.nft": qos_text(node)}
    return files | {f"{slot.name}.lines": lines_text(slot) for slot in node.slots}


def skeletons_of(node: Node) -> dict[str, str]:
    """The names of an application's files for each slot, and their texts."""
    datasets = datasets_of(node)
    files = {}
    for number, slot in enumerate(node.slots):
        files[f"{slot.name}_skeleton.py"] = python_text(slot, number, datasets)
        files[f"{slot.name}_skeleton.c"] = c_text(slot, number, datasets)
    return files
