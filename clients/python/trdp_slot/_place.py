"""Where a slot's control port is."""
from __future__ import annotations

import ipaddress
import os
from collections.abc import Mapping, Sequence
from typing import Any, NamedTuple

from ._faults import ConfigFault
from ._limits import PATH_MOST, SLOTS_MOST
from ._shown import shown
from ._tables import config_number, read_toml, tables
from ._words import address_word, typed, whole


def control_place(config: Mapping[str, Any], slot: int) -> tuple[str, int]:
    """Address and port at which the application of a slot makes its calls, by the tables of a node's configuration.
    A slot that is added while the node runs has the next of the spare ports. Raises ConfigFault where it has none."""
    node = config.get("node")
    if not isinstance(node, dict):
        raise ConfigFault("there is no table node")
    port = control_port(node, tables(config, "slot"), slot)
    if port == 0:
        raise ConfigFault(f"slot {slot} has no control port")
    key = "control_address" if "control_address" in node else "address"
    if key not in node:
        raise ConfigFault("node: address is missing")
    try:
        return address_word(key, node[key]), port
    except ValueError as fault:
        raise ConfigFault(f"node: {fault}") from None


def control_port(node: Mapping[str, Any], slots: Sequence[Mapping[str, Any]], slot: int) -> int:
    """The control port of a slot; 0 where it has none."""
    if 0 <= slot < len(slots):
        return config_number(slots[slot], "control_port", 0, 0xFFFF, 0, f"slot {slot}: ")
    spares = node.get("spare_control_ports", [])
    if not isinstance(spares, list):
        raise ConfigFault(f"node: spare_control_ports is {shown(spares)}, and no list of ports")
    name = f"spare_control_ports[{slot - len(slots)}]"
    added = dict(zip(range(len(slots), len(slots) + len(spares)), spares))
    return config_number({name: added[slot]}, name, 0, 0xFFFF, None, "node: ") if slot in added else 0


class Where(NamedTuple):
    """Where the control port of a slot is: at an address, or in a folder of control sockets, or both may be; and the
    tables of the configuration that said it, if one did."""

    place: tuple[str, int] | None
    folder: str | os.PathLike[str] | None
    port: int
    tables: Mapping[str, Any] | None


def where_is(config: str | os.PathLike[str], slot: int, controls: str | os.PathLike[str] | None,
             number: int | None) -> Where:
    """Where the control port is that a client is made for by these arguments of `Slot`."""
    if not isinstance(config, (str, os.PathLike)):
        raise TypeError(f"config is {shown(config)}, and no path or address")
    if is_address(config) or is_folder(config, slot):
        if controls is not None:
            raise ValueError(f"controls is {shown(controls)}, and {shown(config)} is no configuration")
        if is_address(config):
            return Where((str(config), whole("port", slot, 1, 0xFFFF)), None, slot, None)
        return Where(None, config, slot, None)
    if not isinstance(slot, int) or not 0 <= slot < SLOTS_MOST:
        raise ValueError(f"{shown(config)} is no address as 127.0.0.1, and {shown(slot)} no slot of a "
                         f"configuration, 0 to {SLOTS_MOST - 1}")
    if number not in (None, slot):
        raise ValueError(f"number is {number}, and the slot is {slot}")
    of_node = read_toml(config)
    address, port = control_place(of_node, slot)
    return Where((address, port), controls, port, of_node)


def is_folder(text: str | os.PathLike[str], port: object) -> bool:
    """Whether a folder of control sockets is named, and a port."""
    return "/" in os.fspath(text) and isinstance(port, int) and SLOTS_MOST <= port <= 0xFFFF


def socket_path(name: str, folder: str | os.PathLike[str], port: int | str) -> str:
    """The path of a control socket. Raises ValueError where it can't be one."""
    path = os.path.join(typed(name, os.fspath(folder), str, "path"), str(port))
    if len(os.fsencode(path)) > PATH_MOST or "\0" in path:
        raise ValueError(f"{name} is {shown(folder)}, and a path of a socket has at most {PATH_MOST} bytes, none of "
                         "them zero")
    return path


def is_address(text: str | os.PathLike[str]) -> bool:
    try:
        ipaddress.IPv4Address(text)
    except ValueError:
        return False
    return True
