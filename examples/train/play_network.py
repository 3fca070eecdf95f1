"""The network of the train: a bridge, and for each device a network namespace with a link to the bridge."""
from __future__ import annotations

import ctypes
import os
import subprocess

CLONE_NEWNET = 0x40000000
LINK = "train0"
"""The name that the link of each device has in the device's namespace."""
WAIT = 30.0
"""How many seconds a command may take, and each thing that the train waits for."""


class Refuses(Exception):
    """The system refuses something that the train needs. The text says what, and why."""


class Network:
    """The bridge. It makes the namespaces of the devices, and plugs their links in."""

    def __init__(self) -> None:
        self.system = ctypes.CDLL(None, use_errno=True)
        self.home = os.open("/proc/self/ns/net", os.O_RDONLY)
        ip("link", "add", "bridge", "type", "bridge")
        # The bridge forwards each datagram to every port, so that a device hears the groups that its link has joined.
        ip("link", "set", "bridge", "type", "bridge", "mcast_snooping", "0")
        ip("link", "set", "bridge", "up")

    def namespace(self) -> int:
        """A new network namespace, which lasts as long as this descriptor is open."""
        if self.system.unshare(CLONE_NEWNET):
            raise Refuses(f"unshare: {os.strerror(ctypes.get_errno())}")
        made = os.open("/proc/self/ns/net", os.O_RDONLY)
        if self.system.setns(self.home, CLONE_NEWNET):
            raise Refuses(f"setns: {os.strerror(ctypes.get_errno())}")
        return made

    def plug(self, namespace: int, port: str, address: str) -> None:
        """Makes a link from a port of the bridge to a namespace, where it has this address."""
        ip("link", "add", port, "type", "veth", "peer", "name", LINK, "netns", f"/proc/self/fd/{namespace}",
           namespace=namespace, is_inside=False)
        ip("link", "set", port, "master", "bridge", "up")
        ip("link", "set", "lo", "up", namespace=namespace)
        ip("address", "add", f"{address}/24", "dev", LINK, namespace=namespace)
        ip("link", "set", LINK, "up", namespace=namespace)


def inside(namespace: int) -> list[str]:
    """The words before a command that runs in a namespace."""
    return ["nsenter", f"--net=/proc/self/fd/{namespace}"]


def run(words: list[str], namespace: int | None = None, is_inside: bool = True, said: str = "") -> str:
    """What a command prints, here or in a namespace. Raises Refuses where it fails."""
    keeps = [] if namespace is None else [namespace]
    before = inside(namespace) if namespace is not None and is_inside else []
    try:
        ran = subprocess.run([*before, *words], pass_fds=keeps, input=said, capture_output=True, text=True,
                             timeout=WAIT)
    except subprocess.TimeoutExpired:
        raise Refuses(f"{' '.join(words)}: it hangs") from None
    if ran.returncode:
        raise Refuses(f"{' '.join(words)}: {(ran.stderr.strip().splitlines() or ['it failed'])[0]}")
    return ran.stdout


def ip(*words: str, namespace: int | None = None, is_inside: bool = True) -> None:
    """Runs the command `ip`, here or in a namespace."""
    run(["ip", *words], namespace, is_inside)
