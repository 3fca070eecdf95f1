"""Whatever comes in is taken at once: out of quiet, beside a flood, and where the daemon goes before all others.

How long it takes, and what it costs, `bench/daemon.py rest` and `bench/daemon.py calls` measure.
"""
from __future__ import annotations

import contextlib
import os
import random
import resource
import signal
import socket
import subprocess
import sys
import time
import unittest
from collections.abc import Iterator
from dataclasses import dataclass, field

from test_controls import AtPaths
from test_edge import LISTEN, pid, pull_request
from test_ports import DEVICE, HOME, TELEGRAM, Case, control, node, notification
from testing import CONTROL, MD, OPERATOR, PD, SEED, Daemon, fork, wait_until

# For how many seconds datagrams come out of quiet, and how many of a kind a second. Then how often a few come after
# which nothing comes, how many these are at most and how far apart, and how soon the last one is answered at the
# latest: one that is missed waits for the next.
QUIET, A_SECOND, TIMES, FEW, APART, SOON = 5.0, 200, 50, 3, 0.0001, 20.0
# How many of a kind are under way at most, where somebody stands still: fewer than the system's buffer has room for.
CREDIT = 50
# A cycle in seconds by which something is due all the while: a datagram comes now farther away from it than a
# millisecond, now nearer.
CYCLE = 0.0025
# Each daemon beside others has an address of its own.
HOMES = [f"127.0.8.{it}" for it in range(60, 65)]
# For how many seconds it is seen that a daemon rests.
IDLE = 1.0
# How many calls are made beside a flood, and how many datagrams of it are taken before, and after.
CALLS, FLOOD = 200, 1000
# For how many seconds a daemon of that priority is flooded. Then for how many microseconds it runs at most without a
# rest.
AT_ONCE, PRIORITY, WITHOUT_REST = 10.0, 10, 200_000
# Linux: one send of many datagrams of the same size.
SOL_UDP, UDP_SEGMENT, BATCH = 17, 103, 10


@dataclass
class Kind:
    """Datagrams of one kind that come in at a port, or lines at a path, and where the answer to each comes to."""

    name: str
    sender: socket.socket
    datagram: bytes
    hearer: socket.socket
    sent: int = 0
    came: int = 0

    def send(self) -> None:
        """Sends one more, as soon as there is surely room for it."""
        wait_until(lambda: self.is_answered() or self.sent - self.came < CREDIT)
        self.sender.send(self.datagram)
        self.sent += 1

    def is_answered(self) -> bool:
        """Whether each one was answered by now, once."""
        is_stream = self.hearer.type == socket.SOCK_STREAM
        with contextlib.suppress(BlockingIOError):
            while text := self.hearer.recv(65536):
                self.came += text.count(b"\n") if is_stream else 1
        return self.came == self.sent


@dataclass
class Asked:
    """A daemon that kinds of datagrams come to, and its operator."""

    operator: socket.socket
    kinds: list[Kind] = field(default_factory=list)

    def taken(self) -> int:
        """How many datagrams it has taken, this question among them."""
        self.operator.send(b"totals\n")
        return int(self.operator.recv(200).split()[1])


class Quiet(AtPaths):
    """Datagrams that come at moments by chance, so that many find the daemon at rest, or about to rest."""

    def test_each_is_taken_and_the_last_one_soon(self) -> None:
        print(f"datagrams by chance: seed {SEED}", file=sys.stderr)
        asked = [self.asked("process data", HOMES[0]), self.asked("message data", HOMES[1]),
                 self.asked("control port", HOMES[2]),
                 self.asked("control socket", HOMES[3], "--controls", self.folder),
                 self.beside_a_publisher(HOMES[4])]
        before = [it.taken() for it in asked]
        self.come([kind for it in asked for kind in it.kinds])
        for it, taken in zip(asked, before):
            self.assertEqual(it.taken(), taken + sum(kind.sent for kind in it.kinds) + 1)

    def come(self, kinds: list[Kind]) -> None:
        """Has datagrams of these kinds come by chance, and then of each kind a few after which nothing comes."""
        chance = random.Random(SEED)
        count = round(QUIET * A_SECOND)
        moments = sorted((chance.uniform(0, QUIET), number) for number in range(len(kinds)) for _ in range(count))
        begin = time.monotonic()
        for moment, number in moments:
            time.sleep(max(0.0, begin + moment - time.monotonic()))
            kinds[number].send()
            kinds[number].is_answered()
        for kind in kinds:
            with self.subTest(kind.name, seed=SEED):
                wait_until(kind.is_answered, SOON)
                for _ in range(TIMES):
                    for _ in range(chance.randint(1, FEW)):
                        kind.send()
                        time.sleep(chance.uniform(0, APART))
                    wait_until(kind.is_answered, SOON)

    def asked(self, name: str, home: str, *words: str, more: str = "") -> Asked:
        """A daemon at that address, to which datagrams of this kind come. Its slot 0 answers for process data and hears
        messages; nothing is due but what a line more says."""
        config = node(control(0, "publishers = 2\nlisteners = 1"), control(1))
        self.daemon(config.replace(HOME, home), *words)
        first, second, operator = (self.speaks(it, home, bool(words)) for it in (CONTROL, CONTROL + 1, OPERATOR))
        for line in (f"publish 100 0 0 0 0 0 {DEVICE}:{PD}", "put 1 0a0b", LISTEN.decode(), *more.splitlines()):
            first.send(line.encode() + b"\n")
            self.assertRegex(first.recv(200), b"0 (handle|done)")
        telegrams, messages = (self.socket(DEVICE, to=(home, port)) for port in (PD, MD))
        kinds = [Kind("process data", telegrams, pull_request(), telegrams),
                 Kind("message data", messages, notification(b""), first),
                 Kind("control port", second, b"get 9", second), Kind("control socket", second, b"get 9\n", second)]
        for hearer in (telegrams, first, second):
            hearer.setblocking(False)
        return Asked(operator, [it for it in kinds if it.name in name])

    def beside_a_publisher(self, home: str) -> Asked:
        """A daemon to which all kinds of datagrams come, and whose slot 0 has a publisher too."""
        sink = self.socket(DEVICE)
        line = f"publish 101 0 {round(CYCLE * 1e6)} 0 0 0 {DEVICE}:{sink.getsockname()[1]}\nput 3 0a0b"
        return self.asked("process data, message data, control port", home, more=line)

    def speaks(self, port: int, home: str, is_at_paths: bool) -> socket.socket:
        """A socket that talks to that control port of a daemon."""
        return self.connects(port).socket if is_at_paths else self.client(port, home)


def used(daemon: Daemon) -> float:
    """How many seconds of a processor a daemon has used."""
    with open(f"/proc/{pid(daemon)}/stat", encoding="ascii") as file:
        words = file.read().rpartition(")")[2].split()
    return (int(words[11]) + int(words[12])) / os.sysconf("SC_CLK_TCK")


class NotOpen(AtPaths):
    """What comes to the control port of a slot that isn't open yet."""

    def test_it_waits_and_has_nobody_wait_for_it(self) -> None:
        config = node(control(0), more=f"spare_control_ports = [{CONTROL + 1}]\n")
        for words in ((), ("--controls", self.folder)):
            with self.subTest(words):
                daemon = self.daemon(config, *words)
                application, operator = (self.speaks(it, bool(words)) for it in (CONTROL + 1, OPERATOR))
                application.send(b"get 9\n")
                before = used(daemon)
                time.sleep(IDLE)
                self.assertLess(used(daemon) - before, IDLE / 4)
                operator.send(b"addslot 0 0 0 0 0 0\n")
                self.assertEqual(operator.recv(100), b"ok\n")
                for _ in range(2):
                    self.assertEqual(application.recv(100), b"1 refused NoHandle\n")
                    application.send(b"get 9\n")
                daemon.end()

    def speaks(self, port: int, is_at_paths: bool) -> socket.socket:
        """A socket that talks to that port of the daemon."""
        return self.connects(port).socket if is_at_paths else self.client(port)


def flood(place: tuple[str, int], datagram: bytes, seconds: float, tells: int | None = None) -> int:
    """Starts a process that sends a datagram to a place over and over, as fast as it can, for so long and while
    somebody is there; then it reports at that descriptor how often. Answers its number."""
    def send() -> None:
        sent, end = 0, time.monotonic() + seconds
        with socket.socket(socket.AF_INET, socket.SOCK_DGRAM) as out, contextlib.suppress(ConnectionRefusedError):
            out.connect(place)
            out.setsockopt(SOL_UDP, UDP_SEGMENT, len(datagram))
            while time.monotonic() < end:
                for _ in range(100):
                    out.send(datagram * BATCH)
                sent += 100 * BATCH
        if tells is not None:
            os.write(tells, b"%d" % sent)

    return fork(send, [] if tells is None else [tells])


class Floods(Case):
    """A port that is sent to without end."""

    @contextlib.contextmanager
    def flooded(self, port: int, datagram: bytes) -> Iterator[None]:
        """A port of the daemon is flooded meanwhile: it takes of that before, and goes on with it after."""
        operator = Asked(self.client(OPERATOR))
        number = flood((HOME, port), datagram, 600)
        try:
            self.goes_on(operator)
            yield
            self.goes_on(operator)
        finally:
            os.kill(number, signal.SIGKILL)
            os.waitpid(number, 0)

    @staticmethod
    def goes_on(operator: Asked) -> None:
        """A flood goes on."""
        before = operator.taken()
        wait_until(lambda: operator.taken() > before + FLOOD, 60)

    def test_each_call_at_the_next_slot_is_answered(self) -> None:
        self.daemon(node(control(0), control(1)))
        client = self.client(CONTROL + 1)
        for port, datagram in [(CONTROL, b"get 9"), (PD, TELEGRAM), (MD, notification(b""))]:
            with self.subTest(port), self.flooded(port, datagram):
                for _ in range(CALLS):
                    self.answers(client, b"get 9", b"1 refused NoHandle\n")
                    time.sleep(0.001)


def may_go_first() -> bool:
    """Whether a process may have a real-time policy here, and there is one more processor than it takes."""
    if len(os.sched_getaffinity(0)) < 2:
        return False
    policy, usual = os.sched_getscheduler(0), os.sched_getparam(0)
    try:
        os.sched_setscheduler(0, os.SCHED_FIFO, os.sched_param(PRIORITY))
    except OSError:
        return False
    os.sched_setscheduler(0, policy, usual)
    return True


@unittest.skipUnless(may_go_first(), "a real-time policy isn't allowed, or there is one processor alone")
class First(Case):
    """A daemon under a real-time policy, which nothing ordinary interrupts."""

    def test_a_flood_neither_ends_it_nor_takes_its_processor(self) -> None:
        daemon = self.daemon(node(control(0), control(1)))
        own, other = self.processors()
        os.sched_setaffinity(pid(daemon), {own})
        resource.prlimit(pid(daemon), resource.RLIMIT_RTTIME, (WITHOUT_REST, WITHOUT_REST))
        os.sched_setscheduler(pid(daemon), os.SCHED_FIFO, os.sched_param(PRIORITY))
        # Beside a flood a slow machine with two processors has hardly any time to begin a shell.
        wait_until(lambda: self.shells(own, other) > 0 or daemon.process.poll() is not None, 4 * AT_ONCE)
        self.assertIsNone(daemon.process.poll(), "the daemon was ended")
        self.answers(self.client(CONTROL + 1), b"get 9", b"1 refused NoHandle\n")

    def shells(self, own: int, other: int) -> int:
        """How many shells answer at the daemon's processor, beside a flood from the other one."""
        told, tells = os.pipe()
        number = flood((HOME, CONTROL), b"get 9", AT_ONCE, tells)
        os.sched_setaffinity(number, {other})
        # Anything else at that processor would have the flood pause, and the daemon rest.
        os.sched_setscheduler(number, os.SCHED_FIFO, os.sched_param(1))
        os.close(tells)
        answered = 0
        while not os.waitid(os.P_PID, number, os.WEXITED | os.WNOWAIT | os.WNOHANG):
            answered += self.shell_answers(own)
        os.waitpid(number, 0)
        with open(told, "rb") as file:
            rate = int(file.read()) / AT_ONCE
        print(f"under a real-time policy: {rate:.0f} datagrams a second, {answered} shells", file=sys.stderr)
        return answered

    def processors(self) -> tuple[int, int]:
        """A processor that no one else here is at from now on, and one for the flood. The test has the others."""
        # The first one may have more of the system's own work.
        *others, own = sorted(os.sched_getaffinity(0))
        self.addCleanup(os.sched_setaffinity, 0, {own, *others})
        os.sched_setaffinity(0, others)
        return own, others[-1]

    @staticmethod
    def shell_answers(processor: int) -> bool:
        """Whether a shell of the ordinary policy answers at that processor."""
        ran = subprocess.run(["sh", "-c", "echo here"], capture_output=True, timeout=6 * AT_ONCE,
                             preexec_fn=lambda: os.sched_setaffinity(0, {processor}))
        return ran.stdout == b"here\n"
