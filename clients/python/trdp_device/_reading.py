"""Reads a device configuration. Whatever can't be meant is a DeviceFault with its line."""
from __future__ import annotations

import ipaddress
from collections.abc import Iterator

from ._device import (MD_PORT, PD_PORT, Destination, Device, Direction, Interface, Mapped, MessageParameter,
                      ProcessParameter, Quality, Source, Span, Telegram, Uri)
from ._faults import DeviceFault
from ._hosts import is_own
from ._reading_datasets import read_datasets
from ._shown import shown
from ._tree import Node
from ._words import (address_at, choice_at, fault_at, missing, needed_number_at, number_at, text_at)

PORT_MOST = 0xFFFF
QOS_MOST, TTL_MOST = 7, 255
BEHAVIOURS = ("zero", "keep")


def read_device(root: Node) -> Device:
    """The device of a file."""
    if root.name != "device":
        raise DeviceFault(root.line, f"the root is {shown(root.name)}, and no device")
    host = text_at(root, "host-name")
    if host is None:
        raise missing(root, "host-name")
    interfaces = tuple(map(read_interface, listed(root, "bus-interface-list", "bus-interface")))
    mapped = tuple(Mapped(it.line, text_at(it, "host-name") or "")
                   for it in listed(root, "mapped-device-list", "mapped-device"))
    device = Device(root.line, host, interfaces, mapped, read_qualities(root),
                    read_datasets(list(listed(root, "data-set-list", "data-set"))))
    check_interfaces(device)
    return device


def listed(root: Node, list_name: str, name: str) -> Iterator[Node]:
    """The elements of a list in the root."""
    for part in root.all(list_name):
        yield from part.all(name)


def check_interfaces(device: Device) -> None:
    """Raises DeviceFault if there is no interface, two have one name, one has a port twice, or a telegram's dataset is
    missing."""
    if not device.interfaces:
        raise DeviceFault(device.line, "the device has no bus-interface")
    names: set[str] = set()
    for interface in device.interfaces:
        if interface.name in names:
            raise DeviceFault(interface.line, f"a second interface has the name {shown(interface.name)}")
        names.add(interface.name)
        if interface.process_port == interface.message_port:
            raise DeviceFault(interface.line, f"both protocols have the port {interface.process_port}")
        for telegram in interface.telegrams:
            if telegram.dataset and telegram.dataset not in device.datasets:
                raise DeviceFault(telegram.line, f"there is no data-set {telegram.dataset}")


def read_qualities(root: Node) -> dict[int, Quality]:
    """The com-parameters of a device."""
    found: dict[int, Quality] = {}
    for node in listed(root, "com-parameter-list", "com-parameter"):
        number = needed_number_at(node, "id")
        if number in found:
            raise DeviceFault(node.line, f"a second com-parameter has the id {number}")
        found[number] = read_quality(node, node.line)
    return found


def read_quality(node: Node | None, line: int) -> Quality:
    """How telegrams are sent; a line stands for an element that is missing."""
    if node is None:
        return Quality(line, None, None, None)
    return Quality(node.line, number_at(node, "qos", 0, QOS_MOST), number_at(node, "ttl", 1, TTL_MOST),
                   number_at(node, "retries"))


def read_interface(node: Node) -> Interface:
    """An interface with its telegrams."""
    name = text_at(node, "name")
    if name is None:
        raise missing(node, "name")
    pd, md = node.one("pd-com-parameter"), node.one("md-com-parameter")
    process, message = read_process(pd, "timeout-value"), read_message(md)
    pd_port = number_at(pd, "port", 1, PORT_MOST) if pd else None
    md_port = number_at(md, "udp-port", 1, PORT_MOST) if md else None
    return Interface(
        node.line, name, own_address_at(node), address_at(node, "leader-ip"),
        process or ProcessParameter(node.line, None, None, None, 0), pd_port or PD_PORT, read_quality(pd, node.line),
        message or MessageParameter(node.line, None, None, None), md_port or MD_PORT, read_quality(md, node.line),
        tuple(map(read_telegram, node.all("telegram"))))


def own_address_at(node: Node) -> ipaddress.IPv4Address | None:
    """The interface's own address; None if the file does not say it."""
    address = address_at(node, "host-ip")
    if address and not is_own(address):
        raise fault_at(node, "host-ip", str(address), "no address of a device")
    return address


def read_telegram(node: Node) -> Telegram:
    """A telegram of an interface."""
    kind = choice_at(node, "type", [it.value for it in Direction])
    return Telegram(
        node.line, text_at(node, "name") or "", needed_number_at(node, "com-id"), number_at(node, "data-set-id") or 0,
        number_at(node, "com-parameter-id"), Direction(kind) if kind else None,
        choice_at(node, "create", ("on", "off")) != "off", read_process(node.one("pd-parameter"), "timeout"),
        read_message(node.one("md-parameter")), tuple(map(read_source, node.all("source"))),
        tuple(map(read_destination, node.all("destination"))))


def read_process(node: Node | None, timeout: str) -> ProcessParameter | None:
    """The parameters of process data, of a telegram or of an interface. `timeout` is what the time-out is called."""
    if node is None:
        return None
    return ProcessParameter(node.line, span_at(node, "cycle"), span_at(node, timeout),
                            choice_at(node, "validity-behavior", BEHAVIOURS), number_at(node, "redundant") or 0)


def read_message(node: Node | None) -> MessageParameter | None:
    """The parameters of messages, of a telegram or of an interface."""
    if node is None:
        return None
    return MessageParameter(node.line, span_at(node, "reply-timeout"), span_at(node, "confirm-timeout"),
                            choice_at(node, "protocol", ("UDP", "TCP")))


def span_at(node: Node, name: str) -> Span | None:
    """The time of an attribute; None if it is empty or missing."""
    time = number_at(node, name)
    return None if time is None else Span(node.line, name, time)


def read_source(node: Node) -> Source:
    """Who sends a telegram."""
    uris = (uri_at(node, "uri1"), uri_at(node, "uri2"))
    return Source(tuple(it for it in uris if it), safe_line_of(node))


def read_destination(node: Node) -> Destination:
    """Where a telegram goes."""
    return Destination(uri_at(node, "uri"), safe_line_of(node))


def safe_line_of(node: Node) -> int | None:
    """The line of an sdt-parameter; None if there is none."""
    found = node.all("sdt-parameter")
    return found[0].line if found else None


def uri_at(node: Node, name: str) -> Uri | None:
    """The URI of an attribute; None if it is empty or missing. A host of digits and dots has to be an address."""
    text = text_at(node, name)
    if text is None:
        return None
    user, _, host = text.rpartition("@")
    if host and set(host) <= set("0123456789."):
        try:
            ipaddress.IPv4Address(host)
        except ValueError:
            raise fault_at(node, name, host, "no address, as 10.0.0.2") from None
    return Uri(node.line, user, host)
