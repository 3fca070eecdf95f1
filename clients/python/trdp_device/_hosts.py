"""The addresses of host names, as a file such as /etc/hosts has them."""
from __future__ import annotations

import ipaddress
from collections.abc import Mapping
from ipaddress import IPv4Address

from ._faults import DeviceFault
from ._shown import shown

Hosts = Mapping[str, IPv4Address]
"""The addresses by the names in small letters."""


def read_hosts(data: bytes) -> Hosts:
    """The addresses of a file. The first line with a name holds, and a line with an IPv6 address is skipped. Raises
    DeviceFault if a line begins with something else."""
    found: dict[str, IPv4Address] = {}
    for number, line in enumerate(data.decode("utf-8-sig", "replace").split("\n"), 1):
        words = line.partition("#")[0].split()
        if words:
            try:
                address = ipaddress.ip_address(words[0].partition("%")[0])
            except ValueError:
                raise DeviceFault(number, f"{shown(words[0])} is no address, as 10.0.0.2") from None
            if isinstance(address, IPv4Address):
                for name in words[1:]:
                    found.setdefault(name.lower(), address)
    return found


def address_of(host: str, hosts: Hosts) -> IPv4Address | None:
    """The address that a host is, or that its name has; None if it has none."""
    try:
        return IPv4Address(host)
    except ValueError:
        return hosts.get(host.lower())


def is_own(address: IPv4Address) -> bool:
    """Whether an address can be a device's own: not 0.0.0.0, a group or the broadcast."""
    return not address.is_unspecified and not address.is_multicast and int(address) != 0xFFFFFFFF
