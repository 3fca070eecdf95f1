"""qos.nft of an import, in a network of its own: DSCP and TTL of what arrives, by the bytes of its IP header."""
from __future__ import annotations

import os
import pathlib
import shutil
import socket
import subprocess
import sys
import tempfile
import unittest

from imported_nodes import import_here
from networks import start_loopback
from testing import Daemon
from trdp_slot import Slot
from trdp_telegram import Telegram

DESK, DOORS, SCREEN = "127.0.8.41", "127.0.8.21", "127.0.8.13"
# Of each comId: DSCP and TTL. CS5 is 40, CS4 is 32, CS3 is 24, CS2 is 16.
DOORS_SENT = {2101: (40, 64), 2102: (16, 16)}
DESK_SENT = {2504: (40, 64), 3001: (32, 32), 3009: (24, 32)}


def has_networks() -> bool:
    """Whether a network of its own can be had, and filtered."""
    if os.geteuid() != 0 or not shutil.which("nft") or not shutil.which("unshare"):
        return False
    return subprocess.run(["unshare", "-n", "nft", "list", "ruleset"], capture_output=True).returncode == 0


@unittest.skipUnless(has_networks(), "nft isn't there, or no network of its own")
class Qualities(unittest.TestCase):
    """What each telegram is sent with."""

    def test_bytes_that_arrive(self) -> None:
        """Telegrams of the interface and single ones arrive with the DSCP and the TTL of the file."""
        known = {**os.environ, "PYTHONPATH": os.pathsep.join(sys.path)}
        ran = subprocess.run(["unshare", "-n", sys.executable, __file__], env=known, capture_output=True, text=True,
                             timeout=120)
        self.assertEqual(ran.stderr, "")
        found = {int(it.split()[0]): (int(it.split()[1]), int(it.split()[2])) for it in ran.stdout.splitlines()}
        self.assertEqual(found, {**DOORS_SENT, **DESK_SENT})


def pull(com_id: int) -> None:
    """Asks the desk for what it sends only when it is pulled."""
    with socket.socket(socket.AF_INET, socket.SOCK_DGRAM) as screen:
        screen.bind((SCREEN, 0))
        screen.sendto(Telegram("Pr", 1, reply_com_id=com_id).write(), (DESK, 17224))


def arrived(raw: socket.socket, com_ids: set[int]) -> None:
    """Prints DSCP and TTL of each of these comIds, once it has arrived."""
    while com_ids:
        packet = raw.recv(65536)
        start = (packet[0] & 15) * 4
        com_id = int.from_bytes(packet[start + 16:start + 20])
        if com_id in com_ids:
            com_ids.remove(com_id)
            print(com_id, packet[1] >> 2, packet[8], flush=True)


def main() -> None:
    """Runs two imported nodes in the network that this process has for itself, with their rules."""
    start_loopback()
    with (tempfile.TemporaryDirectory() as made,
          socket.socket(socket.AF_INET, socket.SOCK_RAW, socket.IPPROTO_UDP) as raw):
        raw.settimeout(30)
        for name, port, sent in (("doors", 18000, DOORS_SENT), ("desk_eth0", 18200, DESK_SENT)):
            config = import_here(name, pathlib.Path(made), "--port", str(port))
            for _ in range(2):
                # A second time the rules replace those of the first.
                subprocess.run(["nft", "-f", str(config.parent / "qos.nft")], check=True)
            daemon = Daemon(config.read_text(), str(config.parent))
            try:
                with Slot(config, 0, answer_us=1_000_000) as slot:
                    lines, = config.parent.glob("*.lines")
                    handles = slot.declare(lines)
                    for handle in handles.values():
                        if handle.kind == "publisher":
                            slot.put(handle, slot.datasets.zero(handle.dataset))
                    if name == "desk_eth0":
                        slot.request(3001, f"{DOORS}:17225")
                        slot.notify(3009, f"{DOORS}:17225")
                        pull(2504)
                    arrived(raw, set(sent))
            finally:
                daemon.close()


if __name__ == "__main__":
    main()
