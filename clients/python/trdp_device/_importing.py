"""Makes a node of an interface of a device."""
from __future__ import annotations

import itertools
from collections.abc import Iterator, Mapping
from ipaddress import IPv4Address

from ._calls import Calls, Kind, Use
from ._datasets import Datasets
from ._device import Device, Direction, Interface, Quality, Telegram
from ._faults import DeviceFault, WrongWords
from ._hosts import Hosts, address_of, is_own
from ._names import Names
from ._node import Node, TelegramTable, Wanted
from ._places import Places
from ._qos import Qualities
from ._report import Report
from ._roles import Roles
from ._shown import shown
from ._slots import Slot

CONTROL_ADDRESS = IPv4Address("127.0.0.1")
OPERATOR_AFTER = 100
"""How far the operator's port is behind the first control port."""


def interface_of(device: Device, name: str | None) -> Interface:
    """The interface of that name, or the only one. Raises WrongWords if the name does not say which one."""
    found = [it for it in device.interfaces if name in (None, it.name)]
    if len(found) != 1:
        names = ", ".join(shown(it.name) for it in device.interfaces)
        raise WrongWords(f"--interface has to name one of the interfaces: {names}")
    return found[0]


def make_node(device: Device, wanted: Wanted, hosts: Hosts, report: Report) -> Node:
    """The node of an interface. Raises DeviceFault, and WrongWords if the command line asks for what is not there."""
    interface = interface_of(device, wanted.interface)
    if not interface.telegrams:
        raise DeviceFault(interface.line, f"the interface {shown(interface.name)} has no telegrams")
    check_com_ids(interface, wanted)
    for other in device.interfaces:
        if other is not interface:
            report.note(other.line, f"the interface {shown(other.name)} is left out")
    for mapped in device.mapped:
        report.note(mapped.line, f"the mapped device {shown(mapped.host)} is left out")
    maker = _Maker(device, interface, wanted, hosts, report)
    check_ports(maker.node)
    for telegram in interface.telegrams:
        maker.add(telegram)
    return maker.finish()


def check_com_ids(interface: Interface, wanted: Wanted) -> None:
    """Raises WrongWords if the command line names a comId that the interface does not have."""
    com_ids = {it.com_id for it in interface.telegrams}
    named = [*itertools.chain.from_iterable((wanted.slots or {}).values()), *wanted.as_bytes]
    unknown = sorted(set(named) - com_ids)
    if unknown:
        raise WrongWords(f"the interface {shown(interface.name)} has no telegram of comId {unknown[0]}")


def check_ports(node: Node) -> None:
    """Raises WrongWords if a control port is one of the interface's own."""
    controls = {*(it.port for it in node.slots), node.operator_port}
    if node.address == CONTROL_ADDRESS and controls & {node.process_port, node.message_port}:
        raise WrongWords(f"--port {node.slots[0].port}: one of the ports from there on is the interface's own")


def own_address(device: Device, interface: Interface, hosts: Hosts) -> IPv4Address:
    """The address of the node."""
    address = interface.address or address_of(device.host, hosts)
    if address is None:
        raise DeviceFault(interface.line, f"the interface {shown(interface.name)} has no host-ip, and --hosts has no "
                                          f"address of {shown(device.host)}")
    if not is_own(address):
        raise DeviceFault(interface.line, f"the address {address} of {shown(device.host)} is none of a device")
    return address


def redundant_of(interface: Interface) -> Iterator[int]:
    """The redundancy groups that the file names for what the interface sends."""
    return (it.process.redundant for it in interface.telegrams if it.process and it.type is not Direction.SINK)


class _Maker:
    """Makes a node of the telegrams of an interface, one after the other."""

    def __init__(self, device: Device, interface: Interface, wanted: Wanted, hosts: Hosts, report: Report) -> None:
        address = own_address(device, interface, hosts)
        self.device, self.interface, self.wanted, self.report = device, interface, wanted, report
        self.datasets = Datasets(device.datasets, report)
        self.roles = Roles(redundant_of(interface), report)
        places = Places(address, hosts, report)
        self.calls = Calls(interface, places, self.roles, report)
        self.names = Names(report)
        self.first_datasets: dict[int, int] = {}  # of each comId, as the file has it
        host = Names(report).take_noted(device.host, device.line)
        slots: Mapping[str, frozenset[int] | None] = {host: None} if wanted.slots is None else wanted.slots
        self.node = Node(host, Names(report).take(interface.name), address, interface.process_port,
                         interface.message_port, wanted.port + OPERATOR_AFTER, places.groups,
                         Qualities(interface, report),
                         [Slot(name, com_ids, wanted.port + at) for at, (name, com_ids) in enumerate(slots.items())])

    def add(self, telegram: Telegram) -> None:
        """Adds a telegram to the slots that have its comId."""
        slots = [it for it in self.node.slots if it.has(telegram.com_id)]
        if not slots:
            self.report.loss(telegram.line, f"comId {telegram.com_id} is in no slot: {shown(telegram.name)} is left "
                                            "out")
            return
        name = self.name_of(telegram)
        use = self.use_of(telegram, name)
        counts = {kind: use.count_of(kind, telegram) for kind in Kind}
        rooms = {kind: max(it.room(kind) for it in slots) for kind in Kind}
        if any(min(counts[kind], rooms[kind]) for kind in Kind):
            self.add_calls(telegram, use, name, slots, counts)
        else:
            self.report.loss(telegram.line, f"{name} is left out: no slot has room for its objects")

    def add_calls(self, telegram: Telegram, use: Use, name: str, slots: list[Slot], counts: dict[Kind, int]) -> None:
        """Adds a telegram of which something finds room."""
        quality = self.quality_of(telegram, use, name)
        dataset = 0
        if telegram.com_id not in self.wanted.as_bytes:
            dataset = self.datasets.take(telegram.dataset, telegram.line, use.is_process)
        names = itertools.chain([name], (self.names.take(f"{name}_{it}") for it in itertools.count(2)))
        for kind, count in counts.items():
            made = self.calls.of_kind(kind, telegram, dataset, quality, iter([name]) if kind is Kind.CALLER else names)
            calls = list(itertools.islice(made, min(count, max(it.room(kind) for it in slots))))
            for slot in slots if count else []:
                slot.add(kind, calls, count, telegram.line, self.report)
        self.describe(telegram, use, name, dataset)
        self.report_parts(telegram, use)

    def name_of(self, telegram: Telegram) -> str:
        """The name of a telegram, and of its first object."""
        if telegram.name:
            return self.names.take_noted(telegram.name, telegram.line)
        name = self.names.take(f"telegram_{telegram.com_id}")
        self.report.note(telegram.line, f"the telegram of comId {telegram.com_id} has no name: it is called {name}")
        return name

    def use_of(self, telegram: Telegram, name: str) -> Use:
        """How a telegram is used. What the file does not say is guessed."""
        direction = telegram.type
        if direction is None:
            direction = Direction.SINK if telegram.sources else Direction.SOURCE
            self.report.loss(telegram.line, f"no type: {name} is taken as a {direction.value}")
        if telegram.process is None and telegram.message is None:
            self.report.loss(telegram.line, f"neither pd-parameter nor md-parameter: {name} is taken as process data")
            return Use(direction, True, False)
        return Use(direction, telegram.process is not None, telegram.message is not None)

    def quality_of(self, telegram: Telegram, use: Use, name: str) -> Quality | None:
        """The com-parameter of a telegram that is sent; None if it has the interface's."""
        if not use.direction.sends:
            return None
        quality = None if telegram.quality is None else self.device.qualities.get(telegram.quality)
        if quality is None and telegram.quality is not None:
            self.report.loss(telegram.line, f"there is no com-parameter {telegram.quality}: {name} has the interface's")
        for is_message in (False, True):
            if use.is_message if is_message else use.is_process:
                self.node.qualities.add(telegram, is_message, quality)
        return quality

    def describe(self, telegram: Telegram, use: Use, name: str, dataset: int) -> None:
        """Says in the [[telegram]] of a comId what no earlier telegram has said."""
        com_id, times = telegram.com_id, self.calls.times
        table = self.node.telegrams.setdefault(com_id, TelegramTable(com_id, dataset, name))
        first = self.first_datasets.setdefault(com_id, telegram.dataset)
        if first == 0:
            self.first_datasets[com_id], table.dataset = telegram.dataset, dataset
        elif telegram.dataset not in (0, first) and com_id not in self.wanted.as_bytes:
            self.report.loss(telegram.line, f"comId {com_id} has a second dataset, {telegram.dataset}: its "
                                            f"[[telegram]] names {table.dataset}")
        takes_process = use.is_process and use.direction.takes
        time = times.timeout(telegram) if takes_process else times.own_timeout(telegram)
        table.complete(times.cycle(telegram), time, times.reply(telegram) if use.is_message else None,
                       times.confirm(telegram) if use.is_message else None)

    def report_parts(self, telegram: Telegram, use: Use) -> None:
        """Reports what of a telegram's parts is lost."""
        if use.is_message:
            self.calls.times.report_tcp(telegram)
        lines = [*(it.safe_line for it in telegram.sources), *(it.safe_line for it in telegram.destinations)]
        for line in lines:
            if line is not None:
                self.report.loss(line, "sdt-parameter: its trailer travels as part of the dataset, and the application "
                                       "makes and checks it")

    def finish(self) -> Node:
        """The node, with the datasets that its telegrams use."""
        if self.interface.leader and self.roles.is_used:
            self.report.loss(self.interface.line, f"leader-ip {self.interface.leader}: redundant telegrams are sent "
                                                  f"from {self.node.address}")
        self.node.datasets = self.datasets.finish()
        return self.node
