"""Telegrams that a node receives or sends: at a rate, in bursts, or as many as possible."""
from __future__ import annotations

import re
import socket
import sys
import time
from collections.abc import Callable, Iterator, Sequence
from contextlib import ExitStack, contextmanager
from dataclasses import dataclass
from functools import partial

from daemons.idle import Publishers, spread, started_node
from daemons.nodes import DAEMON, HOST, Node, Started, forked, process_data
from daemons.times import stamped, watched

COM_ID = 200
STEP = 16                                         # between two counters, so that no telegram is stale
SLEEPS = 0.0002                                   # seconds: a shorter wait polls the clock
SETTLES = 0.05                                    # seconds in which the last telegram is taken
SOL_UDP, UDP_SEGMENT = 17, 103                    # Linux: one send of many datagrams of the same size
BATCH, FLOODERS, DIFFERENT = 10, 2, 1000          # datagrams of a send, processes, telegrams that each repeats
PUBLISHERS = Publishers(100, 0.02)
QUOTAS = "publishers = 1\nsubscriptions = 1\n"
LINES = (f"subscribe {COM_ID} 0 0.0.0.0 0.0.0.0 0.0.0.0 0 0 0 keep", f"publish 100 0 3600000000 0 0 0 {HOST}:9",
         "put 2 0a0b")


@dataclass(frozen=True)
class Traffic:
    """How many telegrams a node took, or sent itself; how many were sent; and in how many seconds."""

    count: int
    sent: int
    seconds: float


@dataclass(frozen=True)
class Flow:
    """Telegrams in bursts: how many a burst has, and the seconds between two telegrams of a burst, and from one burst
    to the next."""

    name: str
    burst: int
    gap: float
    period: float

    def due(self, number: int) -> float:
        """When a telegram is sent, in seconds from the beginning."""
        return number // self.burst * self.period + number % self.burst * self.gap


# Has telegrams come or go for that many seconds.
Source = Callable[[float], Traffic]
SLOW = Flow("2000 a second", 1, 0, 1 / 2_000)
FLOWS = [SLOW, Flow("20000 a second", 1, 0, 1 / 20_000), Flow("50000 a second", 1, 0, 1 / 50_000),
         Flow("bursts", 20, 60e-6, 0.01)]


def received() -> int:
    """How many datagrams programs have taken from the system so far."""
    with open("/proc/net/snmp", encoding="ascii") as file:
        names, values = (line.split() for line in file if line.startswith("Udp:"))
    return int(values[names.index("InDatagrams")])


@dataclass
class Sender:
    """Sends telegrams to a port, each with a higher counter, so that none is stale."""

    port: int
    counter: int = 0

    def telegrams(self, count: int) -> list[bytes]:
        """The next telegrams."""
        begin = self.counter
        self.counter += STEP * count
        return [process_data(COM_ID, bytes(8), begin + STEP * number) for number in range(count)]

    def send(self, flow: Flow, seconds: float) -> Traffic:
        """Sends telegrams for that many seconds."""
        telegrams, before = self.telegrams(max(1, round(seconds / flow.period)) * flow.burst), received()
        with socket.socket(socket.AF_INET, socket.SOCK_DGRAM) as out:
            out.connect((HOST, self.port))
            begin = time.perf_counter()
            for number, telegram in enumerate(telegrams):
                wait_until(begin + flow.due(number))
                out.send(telegram)
            took = time.perf_counter() - begin
        time.sleep(SETTLES)
        return Traffic(received() - before, len(telegrams), took)


def wait_until(due: float) -> None:
    """Waits until the clock has that time, and sleeps if it is far away."""
    while (left := due - time.perf_counter()) > 0:
        if left > SLEEPS:
            time.sleep(left - SLEEPS / 2)


@contextmanager
def subscriber(program: str, slots: int, is_real_time: bool) -> Iterator[Node]:
    """A daemon whose first slot accepts telegrams, and has a publisher that is not due soon."""
    with Node(program, DAEMON, slots, QUOTAS, is_real_time) as node:
        for line in LINES:
            if not re.search("handle|done", answer := node.call(line)):
                sys.exit(f"{line!r} is answered by {answer!r}")
        yield node


@contextmanager
def flow(it: Flow, slots: int, program: str, is_real_time: bool) -> Iterator[tuple[Started, Source]]:
    """A daemon to which telegrams come in bursts."""
    with subscriber(program, slots, is_real_time) as node:
        sender = Sender(node.pd)
        sender.send(SLOW, 0.2)
        check_accepted(node)
        yield node, partial(sender.send, it)


@contextmanager
def sent(program: str, is_real_time: bool) -> Iterator[tuple[Started, Source]]:
    """A daemon whose publishers send."""
    def start(it: Publishers, sink: int, _: list[float]) -> Started:
        return started_node(program, it, sink, is_real_time)

    with stamped() as sink, spread(start, PUBLISHERS, sink, []) as node:
        def source(seconds: float) -> Traffic:
            begin = time.monotonic()
            count = sum(map(len, watched(node, sink, seconds).moments.values()))
            return Traffic(count, count, time.monotonic() - begin)

        yield node, source


def check_accepted(node: Node) -> None:
    """Ends the script if the subscription has accepted no telegram."""
    if "value Valid" not in (answer := node.call("get 1")):
        sys.exit(f"no telegram was accepted: {answer}")


def flood(port: int, telegrams: Sequence[bytes]) -> None:
    """Sends telegrams to a port without end."""
    parts = [b"".join(telegrams[at:at + BATCH]) for at in range(0, len(telegrams), BATCH)]
    with socket.socket(socket.AF_INET, socket.SOCK_DGRAM) as out:
        out.connect((HOST, port))
        out.setsockopt(SOL_UDP, UDP_SEGMENT, len(telegrams[0]))
        while True:
            for part in parts:
                out.send(part)


@contextmanager
def flooded(program: str, is_real_time: bool) -> Iterator[tuple[Started, Source]]:
    """A daemon to which two processes send as many telegrams as they can. No two of these have the same counter."""
    with subscriber(program, 1, is_real_time) as node, ExitStack() as stack:
        telegrams = Sender(node.pd).telegrams(FLOODERS * DIFFERENT)
        for number in range(FLOODERS):
            stack.enter_context(forked(partial(flood, node.pd, telegrams[number::FLOODERS])))
        time.sleep(SETTLES)
        check_accepted(node)

        def source(seconds: float) -> Traffic:
            begin, before = time.monotonic(), received()
            time.sleep(seconds)
            count = received() - before
            return Traffic(count, count, time.monotonic() - begin)

        yield node, source
