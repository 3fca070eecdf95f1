"""What comes in and goes out at each port of a daemon, datagram by datagram, and how a service ends."""
from __future__ import annotations

import socket
import struct
import subprocess
import tempfile
import unittest
import zlib
from typing import Any

from testing import CONTROL, MD, OPERATOR, PD, PROGRAM, Daemon, wait_until

Socket = socket.socket
HOME, KEPT, DEVICE = "127.0.8.5", "127.0.8.6", "127.0.8.7"
# How many seconds a socket waits for what has to come.
PATIENCE = 20.0

# The first telegram of comId 100 with the dataset 0a0b, under zlib's frame check.
TELEGRAM = bytes.fromhex("00000000 01005064 00000064 00000000 00000000 00000002 00000000 00000000 00000000"
                         "ec179c94 0a0b0000")


def node(*slots: str, more: str = "") -> str:
    """The configuration of a node with an operator's port and these slots."""
    head = f'[node]\naddress = "{HOME}"\npd_port = {PD}\nmd_port = {MD}\noperator_port = {OPERATOR}\n{more}'
    return head + "".join(f"[[slot]]\n{it}\n" for it in slots)


def control(number: int, quotas: str = "") -> str:
    """A slot of that control port."""
    return f"{quotas}\ncontrol_port = {CONTROL + number}"


def notification(payload: bytes) -> bytes:
    """An `Mn` of comId 300 with that dataset, whose length is a multiple of four."""
    head = struct.pack(">IHHIIIII", 0, 0x100, 0x4D6E, 300, 0, 0, len(payload), 0).ljust(112, b"\0")
    return head + struct.pack("<I", zlib.crc32(head)) + payload


class Case(unittest.TestCase):
    """A daemon, and sockets that talk to its ports."""

    def daemon(self, config: str, *words: str) -> Daemon:
        """A daemon of that configuration, which ends with the test."""
        daemon = Daemon(config, words=words)
        self.addCleanup(daemon.close)
        return daemon

    def socket(self, address: str, port: int = 0, to: tuple[str, int] | None = None) -> Socket:
        """A socket there, which sends to that place."""
        port_socket = socket.socket(socket.AF_INET, socket.SOCK_DGRAM)
        self.addCleanup(port_socket.close)
        port_socket.bind((address, port))
        port_socket.settimeout(PATIENCE)
        if to:
            port_socket.connect(to)
        return port_socket

    def client(self, port: int, address: str = HOME) -> Socket:
        """A new client of that port."""
        return self.socket(address, to=(address, port))

    def answers(self, client: Socket, line: bytes, answer: bytes) -> None:
        """The line is answered so."""
        client.send(line)
        self.assertEqual(client.recv(65536), answer, line)

    def is_quiet(self, client: Socket) -> None:
        """Nothing more comes for a while."""
        client.settimeout(0.05)
        self.assertRaises(TimeoutError, client.recv, 65536)
        client.settimeout(PATIENCE)


class Ports(Case):
    """Each port is the node's own, and is asked and answers for its slot."""

    def test_each_port_answers_for_its_slot(self) -> None:
        # rule: control.line: the call is one of the port's slot
        # The third slot has no control port.
        self.daemon(node(control(0), control(1), "", control(3)))
        for port, line, answer in [
            (OPERATOR, b"topology 8 0", b"ok\n"), (OPERATOR, b"get 1", b"line fault Unknown\n"),
            (CONTROL, b"get 1", b"0 refused NoHandle\n"), (CONTROL + 1, b"get 1", b"1 refused NoHandle\n"),
            (CONTROL + 3, b"get 1", b"3 refused NoHandle\n"),
        ]:
            self.answers(self.client(port), line, answer)

    def test_what_a_datagram_says_at_each_port(self) -> None:
        # rule: control.line: calls are read, and other lines are Unknown
        # rule: control.operator: topology and role are read, and calls are Unknown
        self.daemon(node(control(0)))
        unknown, count, bad_word = (f"line fault {it}\n".encode() for it in ("Unknown", "Count", "BadWord"))
        got = b"0 refused NoHandle\n"
        clients = self.client(CONTROL), self.client(OPERATOR)
        for line, *answers in [
            (b"topology 8 0", unknown, b"ok\n"), (b"role 1 follower\r\n", unknown, b"ok\n"),
            (b"moment 1", unknown, unknown), (b"call 0 get 1", unknown, unknown),
            (b"topology 8", unknown, count), (b"topology 8 0\r", unknown, bad_word),
            (b"get 1", got, unknown), (b"get 1\n", got, unknown), (b"pull 7\r\n", got, unknown),
            (b"get 1\r", bad_word, unknown), (b"get 1\n\n", bad_word, unknown), (b"get 1\nget 2", count, unknown),
            (b" get 1", unknown, unknown), (b"\r", unknown, unknown),
            # What is skipped isn't answered.
            (b"", b"", b""), (b"\n", b"", b""), (b"\r\n", b"", b""), (b"# get 1", b"", b""), (b"# moment 1", b"", b""),
        ]:
            for client, answer in zip(clients, answers):
                if answer:
                    self.answers(client, line, answer)
                else:
                    client.send(line)
                    self.is_quiet(client)

    def test_no_two_daemons_share_a_port(self) -> None:
        self.daemon(node(control(0)))
        with self.assertRaisesRegex(RuntimeError, "bind fault"):
            self.daemon(node(control(1)))

    def test_control_ports_at_an_address_of_their_own(self) -> None:
        self.daemon(node(control(0, "publishers = 1"), more=f'control_address = "{KEPT}"\n'))
        line = f"publish 100 0 100000 0 0 0 {DEVICE}:{PD}".encode()
        self.answers(self.client(CONTROL, KEPT), line, b"0 handle 1\n")
        self.answers(self.client(OPERATOR, KEPT), b"role 3 leader", b"ok\n")

    def test_an_answer_to_a_line_is_not_answered_in_turn(self) -> None:
        self.daemon(node(control(0)))
        for port in (CONTROL, OPERATOR):
            client = self.client(port)
            client.send(b"line fault Unknown\n")
            self.is_quiet(client)
            self.answers(client, b"line faults", b"line fault Unknown\n")
            self.answers(client, b"line", b"line fault Unknown\n")
            self.is_quiet(client)


class Telegrams(Case):
    """Telegrams come in whole, and what comes early waits."""

    def test_60_000_bytes_come_in_whole(self) -> None:
        # One is compared byte by byte; the other one is heard, since what is cut would be no telegram, but its text is
        # longer than any datagram, and is lost.
        daemon = self.daemon(node(control(0, "listeners = 1")), "--totals", "1")
        client = self.client(CONTROL)
        self.answers(client, b"listen any 0.0.0.0 0.0.0.0 0.0.0.0 - 0 0", b"0 handle 1\n")
        stranger = self.socket(DEVICE, MD, to=(HOME, MD))
        stranger.send(notification(b"\x07" * 30_000))
        told = f"0 notified 1 {DEVICE}:{MD} 300 - - {'07' * 30_000}\n"
        self.assertTrue(client.recv(65536) == told.encode())
        stranger.send(notification(b"\x07" * 60_000))
        wanted = {"taken": 3, "offered": 3, "lost": 1, "unread": 0, "memory": 0}
        wait_until(lambda: daemon.totals().get("taken") == 3)
        self.assertEqual(daemon.totals(), wanted)
        self.is_quiet(client)

    def test_what_comes_to_a_spare_port_waits_for_its_slot(self) -> None:
        self.daemon(node(control(0), more=f"spare_control_ports = [{CONTROL + 1}]\n"))
        device, client = self.socket(DEVICE, PD), self.client(CONTROL + 1)
        client.send(f"publish 100 0 100000 0 0 0 {DEVICE}:{PD}".encode())
        self.is_quiet(client)
        self.answers(self.client(OPERATOR), b"addslot 1 0 0 0 0 0", b"ok\n")
        self.assertEqual(client.recv(65536), b"1 handle 1\n")
        self.answers(client, b"put 1 0a0b", b"1 done\n")
        self.assertEqual(device.recv(65536), TELEGRAM)


class Ends(unittest.TestCase):
    """How a service ends, and a script whose faults no one can receive."""

    NOTHING = "taken 0 offered 0 lost 0 unread 0 memory 0\n"
    ONE_PORT = f'[node]\naddress = "{HOME}"\npd_port = {PD}\nmd_port = {PD}\n[[slot]]\n'

    def ends(self, config: str, *words: str, **streams: Any) -> tuple[int, Any, Any]:
        """The status, the output, and what is on the error stream."""
        with tempfile.NamedTemporaryFile("w", suffix=".toml") as file:
            file.write(config)
            file.flush()
            how: dict[str, Any] = {"stdout": subprocess.PIPE, "stderr": subprocess.PIPE, "text": True, "timeout": 60,
                                   **streams}
            ran = subprocess.run([PROGRAM, words[0], file.name, *words[1:]], **how)
            return ran.returncode, ran.stdout, ran.stderr

    def test_services_come_to_their_totals_or_a_fault(self) -> None:
        for config, output, errors, status in [
            (node(control(0, "publishers = 1")), self.NOTHING, "", 0), ("", "", "config fault Missing node\n", 1),
            (self.ONE_PORT, "", "bind fault\n", 4),
        ]:
            for turns in ("0", "3"):
                self.assertEqual(self.ends(config, "serve", "--turns", turns), (status, output, errors))

    def test_a_daemon_whose_ports_are_taken_ends(self) -> None:
        status, output, errors = self.ends(self.ONE_PORT, "daemon", "--totals", "1")
        self.assertEqual((status, output), (4, ""))
        self.assertIn("\nbind fault\n", errors)

    def test_a_writer_that_fails_ends_a_service_of_turns(self) -> None:
        with open("/dev/full", "w") as full:
            ended = self.ends(node(control(0)), "serve", "--turns", "0", stdout=full)
            self.assertEqual(ended, (4, None, "write fault\n"))

    def test_a_fault_that_cannot_be_told_keeps_its_status(self) -> None:
        with open("/dev/full", "w") as full:
            ends = self.ends(node(control(0)), "run", input="moment 5\nmoment 4\nmoment x\n", stderr=full)
            self.assertEqual(ends, (3, "fault Past\n", None))
