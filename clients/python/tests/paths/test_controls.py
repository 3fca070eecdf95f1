"""Control ports that are sockets of a folder: who is the application, what it may say, and what it hears."""
from __future__ import annotations

import contextlib
import os
import re
import select
import socket
import tempfile
import time

from test_edge import LISTEN
from test_ports import DEVICE, HOME, Case, control, node, notification
from testing import CONTROL, MD, OPERATOR, PD, Connection, Daemon, Holder, fork, wait_until
from trdp_telegram import Telegram, read_telegram

# The most bytes of a line with its end, and of the payload of a message.
LINE, PAYLOAD = 140_000, 65_388
# How many applications come one after another, and how many processes at once, with how many turns each.
CONNECTIONS, PROCESSES, TURNS = 1000, 10, 20
# How many notifications come to an application that doesn't read, and how many before it is seen that they were taken:
# fewer than the system's buffer of a port has room for. bench/control_lines.py sends 100,000.
NOTIFICATIONS, CREDIT = 100_000, 50
# How many calls an application makes that doesn't read: more than all buffers take the answers of.
CALLS = 60_000
# Of a publisher, in seconds.
CYCLE = 0.01
NO_HANDLE = b"0 refused NoHandle\n"


def publish(place: tuple[str, int] = (DEVICE, PD), com_id: int = 100, cycle: float = 0.1) -> bytes:
    """A call that makes a publisher to that place, with a cycle in seconds."""
    return f"publish {com_id} 0 {round(cycle * 1e6)} 0 0 0 {place[0]}:{place[1]}".encode()


def lost_of(line: bytes) -> int:
    """How many texts were lost by a line; 0 where it says something else."""
    found = re.fullmatch(rb"lost ([1-9][0-9]*)\n", line)
    return int(found[1]) if found else 0


def arrived(sink: socket.socket) -> list[bytes]:
    """The datagrams that are there."""
    datagrams = []
    while select.select([sink], [], [], 0)[0]:
        datagrams.append(sink.recv(65536))
    return datagrams


class AtPaths(Case):
    """A daemon whose control ports are sockets of a folder of its own."""

    def setUp(self) -> None:
        folder = tempfile.TemporaryDirectory()
        self.addCleanup(folder.cleanup)
        self.folder = folder.name

    def starts(self, *slots: str, more: str = "") -> Daemon:
        """A daemon of these slots, with an operator."""
        return self.daemon(node(*slots, more=more), "--controls", self.folder)

    def connects(self, port: int = CONTROL) -> Connection:
        """A new connection at the path of that port."""
        connection = Connection(f"{self.folder}/{port}")
        self.addCleanup(connection.close)
        return connection

    def kills(self, connection: Connection) -> None:
        """Kills the process that has the connection."""
        holder = Holder(connection.socket)
        self.addCleanup(holder.kill)
        holder.kill()

    def says(self, connection: Connection, line: bytes, answer: bytes) -> None:
        """The line is answered so."""
        connection.say(line)
        self.assertEqual(connection.hear(), answer, line[:80])

    def is_over(self, connection: Connection) -> None:
        """The connection ends, and nothing more is said before."""
        self.assertEqual(connection.hear(), b"")

    def is_refused(self, connection: Connection) -> None:
        """The connection learns that there is another, and ends."""
        self.assertEqual(connection.hear_all(), [b"busy\n"])


class Applications(AtPaths):
    """One application at a time, from its first line on."""

    def test_beside_an_application_that_lives_others_are_refused(self) -> None:
        self.starts(control(0))
        rows = [(b"", b""), (b"#", b""), (b"# get 1", b""), (b"get 9", NO_HANDLE), (b"jump", b"line fault Unknown\n")]
        for first, answer in rows:
            application = self.connects()
            application.say(first)
            others = [self.connects() for _ in range(3)]
            with contextlib.suppress(BrokenPipeError):
                others[1].say(b"reset")
            for other in others:
                self.is_refused(other)
            if answer:
                self.assertEqual(application.hear(), answer)
            self.says(application, b"get 8", NO_HANDLE)
            application.close()

    def test_one_that_said_no_line_gives_way(self) -> None:
        self.starts(control(0, "publishers = 1"))
        silent = [self.connects() for _ in range(3)]
        with contextlib.suppress(BrokenPipeError):
            silent[1].socket.sendall(b"reset")
        application = self.connects()
        self.says(application, publish(), b"0 handle 1\n")
        for connection in silent:
            self.is_over(connection)
            connection.close()
        self.says(application, b"put 1 0a0b", b"0 done\n")

    def test_200_successors_are_never_refused(self) -> None:
        # A predecessor has nothing more to say, or calls whose answers it doesn't read, or bytes without an end.
        self.starts(control(0, "publishers = 1"))
        for number in range(1, 201):
            application = self.connects()
            self.says(application, publish(), b"0 handle %d\n" % number)
            application.say(*[b"get 999"] * (number % 3 * 20))
            application.socket.sendall(b"get 999" * (number % 2))
            self.kills(application)
        self.says(self.connects(), b"put 200 0a0b", NO_HANDLE)

    def test_1000_connections_meet_no_quota(self) -> None:
        self.starts(control(0, "publishers = 1"))
        for number in range(1, CONNECTIONS + 1):
            application = self.connects()
            self.says(application, publish(), b"0 handle %d\n" % number)
            application.close()
        self.says(self.connects(), publish(), b"0 handle %d\n" % (CONNECTIONS + 1))

    def test_processes_in_turns_meet_no_quota(self) -> None:
        self.starts(control(0, "publishers = 1"))
        processes = [fork(self.take_turns) for _ in range(PROCESSES)]
        self.assertEqual([os.waitpid(it, 0)[1] for it in processes], [0] * PROCESSES)
        self.says(self.connects(), publish(), b"0 handle %d\n" % (PROCESSES * TURNS + 1))

    def take_turns(self) -> None:
        """Is the application that many times, as soon as no other is, and has a publisher each time."""
        for _ in range(TURNS):
            wait_until(self.is_application, seconds=20)

    def is_application(self) -> bool:
        """Whether a new connection is the application, and has a publisher: another one may be, or may come between."""
        connection = Connection(f"{self.folder}/{CONTROL}")
        try:
            connection.say(publish())
            text = connection.hear()
        except BrokenPipeError:
            text = b""
        finally:
            connection.close()
        self.assertIn(text.split()[:2], ([], [b"busy"], [b"0", b"handle"]))
        return text.startswith(b"0 handle ")

    def test_what_is_said_at_a_spare_path_waits_for_its_slot(self) -> None:
        # rule: slot.port: the first spare path is the added slot's, and answers for slot 1
        self.starts(control(0), more=f"spare_control_ports = [{CONTROL + 1}]\n")
        application = self.connects(CONTROL + 1)
        application.say(b"get 1", b"get 2")
        self.assertRaises(TimeoutError, application.hear, 0.05)
        self.says(self.connects(OPERATOR), b"addslot 0 0 0 0 0 0", b"ok\n")
        self.assertEqual([application.hear() for _ in range(2)], [b"1 refused NoHandle\n"] * 2)


class Operators(AtPaths):
    """Four operators at once."""

    # Lines, each with its answer.
    LINES = [(b"role 9 leader", b"ok\n"), (b"role 0 leader", b"fault NoGroup\n"), (b"get 1", b"line fault Unknown\n"),
             (b"topology 1", b"line fault Count\n")]

    def test_each_of_four_is_answered_at_its_own(self) -> None:
        self.starts(control(0))
        operators = [self.connects(OPERATOR) for _ in range(4)]
        for number in range(100):
            lines = [self.LINES[(number + it) % 4] for it in range(4)]
            for operator, (line, _) in zip(operators, lines):
                operator.say(line)
            self.assertEqual([it.hear() for it in operators], [answer for _, answer in lines])

    def test_a_fifth_is_refused_and_no_end_resets(self) -> None:
        self.starts(control(0, "publishers = 1"))
        application = self.connects()
        self.says(application, publish(), b"0 handle 1\n")
        operators = [self.connects(OPERATOR) for _ in range(4)]
        for _ in range(3):
            self.is_refused(self.connects(OPERATOR))
        for operator in operators:
            self.says(operator, *self.LINES[0])
        for operator in operators:
            operator.close()
            wait_until(self.has_a_seat)
        self.says(application, b"put 1 0a0b", b"0 done\n")

    def has_a_seat(self) -> bool:
        """Whether a new operator is answered, who ends."""
        operator = self.connects(OPERATOR)
        try:
            operator.say(self.LINES[0][0])
            return operator.hear() == self.LINES[0][1]
        except BrokenPipeError:
            return False
        finally:
            operator.close()


class Lines(AtPaths):
    """What is a line, and what isn't."""

    def test_lines_in_pieces_and_many_at_once(self) -> None:
        self.starts(control(0))
        application = self.connects()
        for byte in b"get 1\nget 2\n\n# get 3\nget 4\n":
            application.socket.sendall(bytes([byte]))
        application.say(*[b"get 5"] * 500)
        self.assertEqual([application.hear() for _ in range(503)], [NO_HANDLE] * 503)
        self.assertRaises(TimeoutError, application.hear, 0.05)

    def test_the_longest_line(self) -> None:
        self.starts(control(0, "publishers = 1"))
        application = self.connects()
        self.says(application, publish(), b"0 handle 1\n")
        application.say(b"#".ljust(LINE - 1, b"x"), b"put 1 0a0b")
        self.assertEqual(application.hear(), b"0 done\n")

    def test_a_longer_line_ends_the_connection(self) -> None:
        self.starts(control(0, "publishers = 1"))
        for number, begin in enumerate([b"#", b"get 1 ", b""], 1):
            application = self.connects()
            self.says(application, publish(), b"0 handle %d\n" % number)
            with contextlib.suppress(BrokenPipeError, ConnectionResetError):
                application.say(begin.ljust(LINE, b"x"), publish())
            self.is_over(application)
            successor = self.connects()
            self.says(successor, b"put %d 0a0b" % number, NO_HANDLE)
            successor.close()

    def test_a_last_line_without_its_end_is_left_out(self) -> None:
        # Its call isn't made, so that the next handle is that of the successor.
        self.starts(control(0, "publishers = 2"))
        for number, more in enumerate([b"", b"get 9\n"], 1):
            application = self.connects()
            self.says(application, publish(), b"0 handle %d\n" % number)
            application.socket.sendall(more + publish())
            application.socket.shutdown(socket.SHUT_WR)
            self.assertEqual(application.hear_all(), [NO_HANDLE] * bool(more))
            successor = self.connects()
            self.says(successor, b"put %d 0a0b" % number, NO_HANDLE)
            successor.close()
        self.says(self.connects(), publish(), b"0 handle 3\n")

    def test_whole_lines_before_an_end_are_taken(self) -> None:
        # The calls are made whose answers no one reads, and before the successor's.
        self.starts(control(0, "publishers = 2"))
        sink = self.socket(DEVICE)
        application, (address, port) = self.connects(), sink.getsockname()
        application.say(*[f"notify 300 - - 0 0 {address}:{port} {it:02x}".encode() for it in range(100)], publish())
        application.close()
        self.says(self.connects(), publish(), b"0 handle 2\n")
        payloads = [read_telegram(sink.recv(65536), True).payload for _ in range(100)]
        self.assertEqual(payloads, [bytes([it]) for it in range(100)])
        self.assertEqual(arrived(sink), [])

    def test_the_longest_message(self) -> None:
        quotas = "listeners = 1\nrepliers = 1\ncallers = 1"
        self.starts(control(0, quotas), control(1, quotas))
        digits = (bytes(it % 251 for it in range(PAYLOAD))).hex()
        place, session = f"{HOME}:{MD}", "0a0b0c0d-0000-0000-0000-000000000001"
        sender, receiver = self.connects(), self.connects(CONTROL + 1)
        self.says(receiver, LISTEN, b"1 handle 1\n")
        steps: list[tuple[Connection, str, list[str]]] = [
            (sender, f"notify 300 - - 0 0 {place} {digits}", ["0 done"]),
            (receiver, "#", [f"1 notified 1 {place} 300 - - {digits}"]),
            (sender, f"request 300 {session} 1 20000000 - - 0 0 {place} {digits}", ["0 handle 1"]),
            (receiver, "#", [f"1 asked 1 2 {session} {place} 300 - - {digits}"]),
            (receiver, f"reply 2 301 0 {digits}", ["1 done"]),
            (sender, "#", [f"0 replied 1 {place} Mp 0 301 {digits}", "0 closed 1 Done"]),
        ]
        for speaker, line, texts in steps:
            speaker.say(line.encode())
            for text in texts:
                self.assertTrue(speaker.hear() == text.encode() + b"\n", text[:80])


class Losses(AtPaths):
    """What an application receives that doesn't read."""

    def test_what_finds_no_room_is_counted_in_its_place(self) -> None:
        self.starts(control(0, "publishers = 1\nlisteners = 1"), control(1, "listeners = 1"))
        sink, device = self.socket(DEVICE), self.socket(DEVICE, to=(HOME, MD))
        application, fence, operator = self.connects(), self.connects(CONTROL + 1), self.connects(OPERATOR)
        self.says(application, LISTEN, b"0 handle 1\n")
        self.says(application, publish(sink.getsockname(), cycle=CYCLE), b"0 handle 2\n")
        self.says(application, b"put 2 0a0b", b"0 done\n")
        self.says(fence, LISTEN.replace(b"300", b"301"), b"1 handle 1\n")
        telegrams, begin = [sink.recv(65536)], time.monotonic()
        for number in range(NOTIFICATIONS):
            device.send(notification(number.to_bytes(4, "big") + bytes(996)))
            if number % CREDIT == CREDIT - 1:
                # What comes after them is heard, so that they were taken.
                device.send(Telegram("Mn", 301).write())
                self.assertIn(b"1 notified 1 ", fence.hear())
                telegrams += arrived(sink)
        took = time.monotonic() - begin
        self.goes_on(telegrams, took / CYCLE)
        lost = self.are_all_told(application, f"0 notified 1 {DEVICE}:{device.getsockname()[1]} 300 - - ".encode())
        self.says(application, b"get 9", NO_HANDLE)
        operator.say(b"totals")
        self.assertIn(b" lost %d unread 0 memory 0\n" % lost, operator.hear())

    def test_calls_are_taken_whose_answers_are_lost(self) -> None:
        self.starts(control(0))
        application = self.connects()
        application.say(*[b"get 9"] * CALLS)
        answered = lost = 0
        while answered + lost < CALLS:
            line = application.hear()
            lost += lost_of(line)
            answered += line == NO_HANDLE
            self.assertTrue(lost_of(line) or line == NO_HANDLE, line)
        self.assertEqual(answered + lost, CALLS)
        self.assertGreater(min(answered, lost), 0)
        self.says(application, b"get 9", NO_HANDLE)

    def goes_on(self, telegrams: list[bytes], cycles: float) -> None:
        """Of a publisher that ran for that many cycles came each telegram, and no tenth of them at the least."""
        counters = [read_telegram(it, False).counter for it in telegrams]
        self.assertEqual(counters, list(range(counters[0], counters[0] + len(counters))))
        self.assertGreaterEqual(len(counters), cycles / 10)

    def are_all_told(self, application: Connection, head: bytes) -> int:
        """The application receives each notification by a line that begins so, or how many were lost in their place.
        Answers how many were lost."""
        came = lost = 0
        while came + lost < NOTIFICATIONS:
            line = application.hear()
            if lost_of(line):
                lost += lost_of(line)
            else:
                self.assertEqual(line, head + b"%08x" % (came + lost) + b"00" * 996 + b"\n")
                came += 1
        self.assertEqual(came + lost, NOTIFICATIONS)
        self.assertGreater(min(came, lost), 0)
        return lost
