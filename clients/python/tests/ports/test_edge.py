"""What a daemon asks of its system, call by call: it binds, takes, gives, watches its ports, and waits."""
from __future__ import annotations

import errno
import os
import signal
import socket
import struct
import time
import zlib

from test_ports import DEVICE, HOME, KEPT, TELEGRAM, Case, control, node, notification
from testing import CONTROL, MD, OPERATOR, PD, Daemon, wait_until

FAR = "127.0.8.8"
# How long an answer may take at most, in seconds; it takes some 10 ms on a busy machine. No rest here ends by itself.
PROMPT = 5.0
TRIES = 3
# A message as long as a datagram over UDP allows: its header, and a dataset of whole words.
LONGEST = 65_504
LISTEN = b"listen 300 0.0.0.0 0.0.0.0 0.0.0.0 - 0 0"


def pid(daemon: Daemon) -> int:
    """The number of the daemon's process."""
    assert daemon.process is not None
    return daemon.process.pid


def is_in(daemon: Daemon, state: str) -> bool:
    """Whether the system has the daemon's process in that state: S sleeps, T is stopped."""
    with open(f"/proc/{pid(daemon)}/stat") as file:
        return file.read().rpartition(")")[2].split()[0] == state


def pull_request() -> bytes:
    """A `Pr` of comId 100, which is answered to where it came from."""
    head = struct.pack(">IHHIIIIIII", 0, 0x100, 0x5072, 100, 0, 0, 0, 0, 0, 0)
    return head + struct.pack("<I", zlib.crc32(head))


def request(size: int) -> bytes:
    """An `Mr` of comId 300 with a dataset of zeros, of that many bytes in all."""
    session = bytes(15) + b"\x01"
    head = struct.pack(">IHHIIIIi16sI", 0, 0x100, 0x4D72, 300, 0, 0, size - 116, 0, session, 0).ljust(112, b"\0")
    return head + struct.pack("<I", zlib.crc32(head)) + bytes(size - 116)


def is_free(place: tuple[str, int]) -> bool:
    """Whether no one has that UDP port."""
    with socket.socket(socket.AF_INET, socket.SOCK_DGRAM) as probe:
        try:
            probe.bind(place)
        except OSError as fault:
            if fault.errno == errno.EADDRINUSE:
                return False
            raise
    return True


def comes(hearer: socket.socket, answer: bytes) -> bool:
    """Whether a datagram with these bytes in it comes at once; others are left out."""
    end = time.monotonic() + PROMPT
    while (left := end - time.monotonic()) > 0:
        hearer.settimeout(left)
        try:
            if answer in hearer.recv(65536):
                return True
        except TimeoutError:
            pass
    return False


def wakes(daemon: Daemon, sender: socket.socket, datagram: bytes, hearer: socket.socket, answer: bytes) -> bool:
    """Whether a datagram that finds the daemon at rest is answered at once."""
    wait_until(lambda: is_in(daemon, "S"))
    sender.send(datagram)
    return comes(hearer, answer)


class Edge(Case):
    """Each of the system's calls over loopback."""

    def settle(self, operator: socket.socket) -> None:
        """Waits until what was sent to a control port is taken: in each turn its place is after the operator's."""
        for _ in range(2):
            self.answers(operator, b"role 9 leader", b"ok\n")

    def test_bind_takes_each_place_and_no_other(self) -> None:
        more = f'control_address = "{KEPT}"\nspare_control_ports = [{CONTROL + 1}]\n'
        self.daemon(node(control(0), more=more))
        places = [(address, port) for address in (HOME, KEPT) for port in (PD, MD, OPERATOR, CONTROL, CONTROL + 1)]
        taken = [place for place in places if not is_free(place)]
        self.assertEqual(taken, [(HOME, PD), (HOME, MD), (KEPT, OPERATOR), (KEPT, CONTROL), (KEPT, CONTROL + 1)])

    def test_bind_takes_each_spare_port(self) -> None:
        # rule: slot.port: each of 15 added slots answers at the next spare port
        spares = range(CONTROL + 1, CONTROL + 16)
        self.daemon(node(control(0), more=f"spare_control_ports = {list(spares)}\n"))
        operator = self.client(OPERATOR)
        for slot, port in enumerate(spares, 1):
            self.answers(operator, b"addslot 0 0 0 0 0 0", b"ok\n")
            self.answers(self.client(port), b"get 1", f"{slot} refused NoHandle\n".encode())
        self.answers(operator, b"addslot 0 0 0 0 0 0", b"fault SlotsFull\n")

    def test_give_sends_from_the_port_of_its_kind(self) -> None:
        self.daemon(node(control(0, "publishers = 1"), more=f'control_address = "{KEPT}"\n'))
        telegrams, messages, client = (self.socket(DEVICE) for _ in range(3))
        for port, line, answer in [
            (OPERATOR, b"role 9 leader", b"ok\n"),
            (CONTROL, f"publish 100 0 100000 0 0 0 {DEVICE}:{telegrams.getsockname()[1]}".encode(), b"0 handle 1\n"),
            (CONTROL, b"put 1 0a0b", b"0 done\n"),
            (CONTROL, f"notify 300 - - 0 0 {DEVICE}:{messages.getsockname()[1]} 0d".encode(), b"0 done\n"),
        ]:
            client.sendto(line, (KEPT, port))
            self.assertEqual(client.recvfrom(65536), (answer, (KEPT, port)))
        self.assertEqual(telegrams.recvfrom(65536), (TELEGRAM, (HOME, PD)))
        message, place = messages.recvfrom(65536)
        self.assertEqual((message[6:8], place), (b"Mn", (HOME, MD)))

    def test_take_tells_where_each_datagram_came_from(self) -> None:
        self.daemon(node(control(0, "listeners = 1"), control(1)))
        near, far = self.socket(DEVICE), self.socket(FAR)
        for port, line, answer in [
            (OPERATOR, b"role 9 leader", b"ok\n"), (CONTROL + 1, b"get 1", b"1 refused NoHandle\n"),
        ]:
            for client in (near, far):
                client.sendto(line, (HOME, port))
                self.assertEqual(client.recv(65536), answer)
        near.sendto(LISTEN, (HOME, CONTROL))
        self.assertEqual(near.recv(65536), b"0 handle 1\n")
        far.sendto(notification(b""), (HOME, MD))
        self.assertEqual(near.recv(65536), f"0 notified 1 {FAR}:{far.getsockname()[1]} 300 - - -\n".encode())
        self.is_quiet(far)

    def test_take_has_an_empty_datagram_for_a_line_that_is_skipped(self) -> None:
        self.daemon(node(control(0, "listeners = 1")))
        first, latest, stranger = self.client(CONTROL), self.client(CONTROL), self.socket(DEVICE, to=(HOME, MD))
        self.answers(first, LISTEN, b"0 handle 1\n")
        latest.send(b"")
        self.settle(self.client(OPERATOR))
        stranger.send(notification(b""))
        self.assertIn(b"0 notified 1 ", latest.recv(65536))
        self.is_quiet(first)

    def test_take_has_the_longest_message_whole(self) -> None:
        daemon = self.daemon(node(control(0, "listeners = 1\nrepliers = 1")), "--totals", "1")
        client, stranger = self.client(CONTROL), self.socket(DEVICE, to=(HOME, MD))
        self.answers(client, LISTEN, b"0 handle 1\n")
        # Its text is longer than a datagram, so that its replier shows by its handle alone.
        for size, answer in [(LONGEST + 1, b"0 refused NoHandle\n"), (LONGEST, b"0 done\n")]:
            stranger.send(request(size))
            stranger.send(notification(b""))
            self.assertIn(b"0 notified 1 ", client.recv(65536))
            self.answers(client, b"abort 2", answer)
        wait_until(lambda: daemon.totals().get("taken") == 7, seconds=20)
        self.assertEqual(daemon.totals(), {"taken": 7, "offered": 6, "lost": 1, "unread": 0, "memory": 0})

    def test_watch_ends_a_rest_at_each_kind_of_port(self) -> None:
        # Nothing is due at any time, so that a datagram alone ends a rest.
        more = f"spare_control_ports = [{CONTROL + 1}]\n"
        daemon = self.daemon(node(control(0, "publishers = 1\nlisteners = 1"), more=more))
        operator, client, added = self.client(OPERATOR), self.client(CONTROL), self.client(CONTROL + 1)
        telegrams, messages = self.socket(DEVICE, PD, to=(HOME, PD)), self.socket(DEVICE, MD, to=(HOME, MD))
        self.answers(operator, b"addslot 1 0 0 0 0 0", b"ok\n")
        self.answers(client, f"publish 100 0 0 0 0 0 {FAR}:{PD}".encode(), b"0 handle 1\n")
        self.answers(client, b"put 1 0a0b", b"0 done\n")
        self.answers(client, LISTEN, b"0 handle 2\n")
        for sender, datagram, hearer, answer in [
            (telegrams, pull_request(), telegrams, b"Pp"), (messages, notification(b""), client, b"0 notified 2 "),
            (operator, b"role 9 leader", operator, b"ok\n"), (client, b"get 9", client, b"0 refused NoHandle\n"),
            (added, b"get 9", added, b"1 refused NoHandle\n"),
        ]:
            self.assertTrue(any(wakes(daemon, sender, datagram, hearer, answer) for _ in range(TRIES)), answer)

    def test_wait_begins_only_where_nothing_is_there(self) -> None:
        daemon = self.daemon(node(control(0)))
        self.assertTrue(any(self.takes_all(daemon) for _ in range(TRIES)))

    def takes_all(self, daemon: Daemon) -> bool:
        """Whether several datagrams that are there at once are all answered at once."""
        clients = [self.client(CONTROL) for _ in range(8)]
        os.kill(pid(daemon), signal.SIGSTOP)
        wait_until(lambda: is_in(daemon, "T"))
        for number, client in enumerate(clients):
            client.send(f"get {number}".encode())
        os.kill(pid(daemon), signal.SIGCONT)
        return all(comes(client, b"0 refused NoHandle\n") for client in clients)
