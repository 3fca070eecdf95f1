"""trdp_dump.py and trdp_send.py in multicast groups, on the loopback."""
from __future__ import annotations

import contextlib
import os
import pathlib
import socket
import struct
import subprocess
import sys
import tempfile
import unittest

import testing
from test_tools import Dump
from testing import PYTHON
from trdp_telegram import Telegram

LOCAL, SOURCE, DUMP = "127.0.0.1", "127.0.8.60", "127.0.8.61"
FIRST, SECOND, OTHER = "239.192.8.60", "239.195.255.61", "239.192.8.62"
# Ports that no one has at any address, for 0.0.0.0.
PD, MD = 18260, 18261
PORTS = ["--pd-port", str(PD), "--md-port", str(MD)]
JOINED = ["--group", FIRST, "--group", SECOND, "--group", FIRST]
IP_RECVTTL = 12


def memberships(group: str) -> int:
    """How often a group is joined on this machine."""
    number, = struct.unpack("=I", socket.inet_aton(group))
    rows = pathlib.Path("/proc/net/igmp").read_text().splitlines()
    return sum(int(it.split()[1]) for it in rows if it.startswith(f"\t\t\t\t{number:08X} "))


def destinations(file: pathlib.Path) -> list[str]:
    """Where the packets of a file went to."""
    data, start, found = file.read_bytes(), 0, []
    while start < len(data):
        kind, length = struct.unpack_from("<2I", data, start)
        if kind == 6:
            # Behind the head of the block and the IP header's first words.
            place, = struct.unpack_from("4s", data, start + 28 + 16)
            found.append(socket.inet_ntoa(place))
        start += length
    return found


@unittest.skipUnless(testing.has_groups(), testing.NO_GROUPS)
class Dumps(unittest.TestCase):
    """What comes to an address and to groups is shown, each datagram once."""

    def setUp(self) -> None:
        stack = self.enterContext(contextlib.ExitStack())
        # Another program has joined a group that isn't asked for, so that the system takes what comes to that.
        self.other = stack.enter_context(testing.join(LOCAL, OTHER))
        self.out = stack.enter_context(testing.sender(SOURCE))
        self.file = pathlib.Path(stack.enter_context(tempfile.TemporaryDirectory())) / "seen.pcapng"
        self.source = f"{SOURCE}:{self.out.getsockname()[1]}"

    def give(self, number: int, home: str, kind: str = "Pd") -> None:
        """Sends a telegram of a comId."""
        self.out.sendto(Telegram(kind, number).write(), (home, MD if kind == "Mn" else PD))

    def dump(self, words: list[str], count: int, address: str = DUMP) -> Dump:
        """A dump that ends with the test at the latest."""
        begun = Dump([*PORTS, *words], count, address)
        self.addCleanup(begun.process.communicate)
        self.addCleanup(begun.process.kill)
        return begun

    def shows_each_once(self, words: list[str], address: str = DUMP, own: str = DUMP) -> None:
        """A dump that has these words shows what is sent to the address and to both groups, and nothing else."""
        dump = self.dump([*JOINED, "--pcapng", str(self.file), *words], 6, address)
        self.assertEqual(dump.begun, f"trdp_dump.py: at {address} and {FIRST} and {SECOND}, ports {PD} and {MD}\n")
        self.give(1, OTHER)
        sent = [(2, DUMP, "Pd"), (3, FIRST, "Pd"), (4, SECOND, "Pd"), (5, FIRST, "Mn"), (6, DUMP, "Mn"),
                (7, DUMP, "Pd")]
        for number, home, kind in sent:
            self.give(number, home, kind)
        # They come to several sockets, so that their order isn't that in which they were sent.
        lines = sorted(dump.lines(), key=lambda it: it.partition("comId=")[2])
        self.assertEqual([it.partition(" counts")[0] for it in lines],
                         [f"{kind} comId={number} counter=0" for number, _, kind in sent])
        self.assertEqual({it.partition(" from=")[2].partition(" ")[0] for it in lines}, {self.source})
        self.assertEqual(sorted(destinations(self.file)), sorted([own] * 3 + [FIRST, FIRST, SECOND]))

    def test_an_address_and_groups(self) -> None:
        self.shows_each_once([])

    def test_an_interface_by_its_name_and_by_its_address(self) -> None:
        for word in ("lo", LOCAL):
            self.shows_each_once(["--interface", word])

    def test_all_addresses_and_groups(self) -> None:
        self.shows_each_once(["--interface", LOCAL], "0.0.0.0", "0.0.0.0")

    @unittest.skipUnless(os.geteuid() == 0, "what comes to another program's ports can be copied by root alone")
    def test_beside_the_programs_that_have_the_ports(self) -> None:
        with socket.socket(socket.AF_INET, socket.SOCK_DGRAM) as taken:
            taken.bind(("0.0.0.0", PD))
            for address in (DUMP, "0.0.0.0"):
                self.shows_each_once(["--beside", "--interface", "lo"], address)

    def test_the_group_alone(self) -> None:
        dump = self.dump(["--group", FIRST, "--interface", "lo"], 1, FIRST)
        self.assertEqual(dump.begun, f"trdp_dump.py: at {FIRST}, ports {PD} and {MD}\n")
        self.give(1, FIRST)
        self.assertEqual(len(dump.lines()), 1)

    def test_two_share_a_group_and_leave_it(self) -> None:
        dumps = [self.dump(["--group", FIRST], 1, it) for it in (DUMP, SOURCE)]
        self.assertEqual(memberships(FIRST), 4)
        self.give(1, FIRST)
        for dump in dumps:
            self.assertEqual(len(dump.lines()), 1)
        self.assertEqual(memberships(FIRST), 0)

    def test_a_port_of_a_group_that_is_taken(self) -> None:
        with socket.socket(socket.AF_INET, socket.SOCK_DGRAM) as taken:
            taken.bind((FIRST, MD))
            line = [sys.executable, str(PYTHON / "trdp_dump.py"), DUMP, *PORTS, *JOINED]
            ran = subprocess.run(line, capture_output=True, timeout=60, text=True)
        self.assertEqual((ran.returncode, ran.stderr), (
            1, f"trdp_dump.py: {FIRST}:{MD}: Address already in use: a program has this port; --beside copies what "
               "comes to it, as root\n"))

    def test_the_port_of_the_address_is_shared_with_nobody(self) -> None:
        dump = self.dump([*JOINED, "--interface", "lo"], 1, "0.0.0.0")
        with socket.socket(socket.AF_INET, socket.SOCK_DGRAM) as late:
            late.setsockopt(socket.SOL_SOCKET, socket.SO_REUSEADDR, 1)
            self.assertRaises(OSError, late.bind, (DUMP, PD))
        self.give(1, FIRST)
        self.assertEqual(len(dump.lines()), 1)


@unittest.skipUnless(testing.has_groups(), testing.NO_GROUPS)
class Sends(unittest.TestCase):
    """How far a telegram goes, and where it leaves."""

    def sent(self, port: socket.socket, *words: str) -> tuple[int, str]:
        """The time to live of what trdp_send.py sends, and the address that it comes from."""
        port.settimeout(10)
        port.setsockopt(socket.IPPROTO_IP, IP_RECVTTL, 1)
        address, number = port.getsockname()
        line = [sys.executable, "-W", "error", str(PYTHON / "trdp_send.py"), f"{address}:{number}", "--com-id", "1",
                *words]
        ran = subprocess.run(line, capture_output=True, timeout=60)
        self.assertEqual((ran.returncode, ran.stderr), (0, b""))
        data, told, _, source = port.recvmsg(65536, 64)
        self.assertEqual(data, Telegram("Pd", 1).write())
        (_, _, ttl), = told
        return int.from_bytes(ttl, sys.byteorder), source[0]

    def test_to_a_group(self) -> None:
        with testing.join(LOCAL, FIRST) as port:
            self.assertEqual(self.sent(port, "--from", f"{SOURCE}:0"), (64, SOURCE))
            for ttl in (1, 3, 255):
                self.assertEqual(self.sent(port, "--from", f"{SOURCE}:0", "--ttl", str(ttl)), (ttl, SOURCE))

    def test_to_an_address(self) -> None:
        default = int(pathlib.Path("/proc/sys/net/ipv4/ip_default_ttl").read_text())
        with socket.socket(socket.AF_INET, socket.SOCK_DGRAM) as port:
            port.bind((DUMP, 0))
            self.assertEqual(self.sent(port, "--from", f"{SOURCE}:0"), (default, SOURCE))
            for ttl in (1, 7, 255):
                self.assertEqual(self.sent(port, "--from", f"{SOURCE}:0", "--ttl", str(ttl)), (ttl, SOURCE))
