"""examples/control/filter.nft, in a network of its own: who reaches each control port, and who can be one."""
from __future__ import annotations

import os
import re
import shutil
import socket
import subprocess
import sys
import unittest

from networks import start_loopback
from testing import TOP

# Numbers of the users, who need not exist.
USERS = {"trdpd": 61001, "doors": 61002, "diagnosis": 61003, "supervisor": 61004}
OTHER = 61005
HOME = "127.0.0.1"


def has_networks() -> bool:
    """Whether a network of its own can be had, and filtered."""
    if os.geteuid() != 0 or not shutil.which("nft") or not shutil.which("unshare"):
        return False
    return subprocess.run(["unshare", "-n", "nft", "list", "ruleset"], capture_output=True).returncode == 0


@unittest.skipUnless(has_networks(), "nft isn't there, or no network of its own")
class Filter(unittest.TestCase):
    """Each user at each port."""

    def test_users_and_ports(self) -> None:
        known = {**os.environ, "PYTHONPATH": os.pathsep.join(sys.path)}
        line = ["unshare", "-n", sys.executable, __file__]
        ran = subprocess.run(line, env=known, capture_output=True, text=True, timeout=60)
        self.assertEqual(ran.stderr, "")
        found = {tuple(map(int, it.split()[:3])): it.split()[3] for it in ran.stdout.splitlines()}
        users = {18000: USERS["doors"], 18001: USERS["diagnosis"], 18100: USERS["supervisor"]}
        self.assertEqual(len(found), 3 * 6 * 6)
        for (port, server, client), what in found.items():
            meant = "unsent" if client != users[port] else "answered" if server == USERS["trdpd"] else "unanswered"
            self.assertEqual(what, meant, (port, server, client))


def socket_of(user: int) -> socket.socket:
    """A user's socket."""
    os.seteuid(user)
    try:
        return socket.socket(socket.AF_INET, socket.SOCK_DGRAM)
    finally:
        os.seteuid(0)


def exchange(port: int, server: int, client: int) -> str:
    """What results from a line of a user to a port that another one has."""
    with socket_of(server) as node, socket_of(client) as application:
        node.bind((HOME, port))
        application.connect((HOME, port))
        try:
            application.send(b"get 1")
        except PermissionError:
            return "unsent"
        _, place = node.recvfrom(100)
        try:
            node.sendto(b"0 done\n", place)
        except PermissionError:
            return "unanswered"
        return "answered" if application.recv(100) == b"0 done\n" else "something else"


def main() -> None:
    """Tries each user at each port, in the network that this process has for itself."""
    start_loopback()
    text = (TOP / "examples/control/filter.nft").read_text()
    rules = re.sub('skuid != "([a-z]+)"', lambda found: f"skuid != {USERS[found[1]]}", text)
    subprocess.run(["nft", "-f", "-"], input=rules, text=True, check=True)
    for port in (18000, 18001, 18100):
        for server in (0, OTHER, *USERS.values()):
            for client in (0, OTHER, *USERS.values()):
                print(port, server, client, exchange(port, server, client))


if __name__ == "__main__":
    main()
