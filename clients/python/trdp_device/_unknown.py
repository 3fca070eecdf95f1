"""The elements and attributes of a device configuration that nobody knows."""
from __future__ import annotations

from ._report import Report
from ._shown import shown
from ._tree import Node

# What may be in each element: its attributes, and the elements within. What is in the others means nothing to a node.
KNOWN: dict[str, tuple[str, str]] = {
    "device": ("host-name leader-name type", "device-configuration bus-interface-list mapped-device-list "
                                             "com-parameter-list data-set-list debug"),
    "bus-interface-list": ("", "bus-interface"),
    "bus-interface": ("network-id name host-ip leader-ip", "trdp-process pd-com-parameter md-com-parameter telegram"),
    "pd-com-parameter": ("marshall port qos ttl timeout-value validity-behavior callback", ""),
    "md-com-parameter": ("udp-port tcp-port reply-timeout confirm-timeout connect-timeout sending-timeout num-sessions "
                         "protocol marshall callback qos ttl retries", ""),
    "telegram": ("name com-id data-set-id com-parameter-id type create",
                 "pd-parameter md-parameter source destination"),
    "pd-parameter": ("cycle timeout validity-behavior redundant marshall callback offset-address", ""),
    "md-parameter": ("reply-timeout confirm-timeout protocol marshall callback", ""),
    "source": ("id uri1 uri2 name", "sdt-parameter"),
    "destination": ("id uri name", "sdt-parameter"),
    "com-parameter-list": ("", "com-parameter"),
    "com-parameter": ("id qos ttl retries", ""),
    "data-set-list": ("", "data-set"),
    "data-set": ("name id", "element"),
    "element": ("name type array-size unit scale offset", ""),
}


def note_unknown(root: Node, report: Report) -> None:
    """Notes each unknown element and attribute, once for each element that it is in."""
    seen: set[tuple[str, str, str]] = set()
    known = {name: (set(attributes.split()), set(parts.split())) for name, (attributes, parts) in KNOWN.items()}
    left = [root]
    while left:
        node = left.pop()
        attributes, parts = known[node.name]
        found = [("attribute", it, "of", node.line) for it in node.attributes if it not in attributes]
        found += [("element", it.name, "in", it.line) for it in node.children if it.name not in parts]
        for what, name, within, line in found:
            if (what, name, node.name) not in seen:
                seen.add((what, name, node.name))
                report.note(line, f"the {what} {shown(name)} {within} {node.name} is not known")
        left += [it for it in reversed(node.children) if it.name in parts and it.name in known]
