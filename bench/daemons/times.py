"""How long calls wait for their answers, how late a node's telegrams leave, and what it uses meanwhile."""
from __future__ import annotations

import contextlib
import random
import socket
import struct
import sys
import time
from collections.abc import Callable, Iterator, Mapping, Sequence
from dataclasses import dataclass

from daemons.nodes import DAEMON, FLOODS, HOST, PATIENCE, Node, Started, apart, flooding, put_first

FIRST = 30                                        # calls of a node that has just begun, which do not count
SO_TIMESTAMPNS = 35                               # Linux: when a datagram came, in nanoseconds
LOOKS = 0.005                                     # seconds between two looks at what came, so that none wakes a process
NUMBER = slice(8, 12)                             # the place of a telegram's comId, its publisher's number


@dataclass(frozen=True)
class Arrivals:
    """The telegrams of publishers: the share of a processor that the node took meanwhile, and when each telegram came,
    in seconds, by the number of its publisher."""

    processor: float
    moments: Mapping[bytes, list[float]]


@dataclass(frozen=True)
class Attended:
    """A node that sends on time and answers calls: the share of a processor that it took, how late each telegram came
    and how long each call waited, in microseconds, and the phases of its publishers, in seconds."""

    processor: float
    late: list[float]
    answers: list[float]
    phases: list[float]


def share(values: Sequence[float], part: float) -> float:
    """The value that this share of the values does not exceed."""
    values = sorted(values)
    return values[min(len(values) - 1, int(part * len(values)))]


def stamped() -> socket.socket:
    """A socket at which the system notes when each datagram came."""
    sink = socket.socket(socket.AF_INET, socket.SOCK_DGRAM)
    sink.bind((HOST, 0))
    sink.setsockopt(socket.SOL_SOCKET, SO_TIMESTAMPNS, 1)
    return sink


def arrivals(sink: socket.socket, seconds: float) -> Iterator[tuple[float, bytes]]:
    """The datagrams that come to such a socket within these seconds, and when each came, in seconds."""
    end = time.monotonic() + seconds
    sink.setblocking(False)
    while time.monotonic() < end:
        time.sleep(LOOKS)
        with contextlib.suppress(BlockingIOError):
            while True:
                telegram, extra, _, _ = sink.recvmsg(128, 64)
                whole, nanos = struct.unpack("qq", extra[0][2])
                yield whole + nanos / 1e9, telegram


def watched(node: Started, sink: socket.socket, seconds: float) -> Arrivals:
    """Watches what a node's publishers send to such a socket within these seconds."""
    begin, used = time.monotonic(), node.used()
    moments: dict[bytes, list[float]] = {}
    for moment, telegram in arrivals(sink, seconds):
        moments.setdefault(telegram[NUMBER], []).append(moment)
    return Arrivals((node.used() - used) / (time.monotonic() - begin), moments)


def publish(node: Started, sink: socket.socket, cycle: float) -> None:
    """Makes a publisher with that cycle in seconds, which sends to that socket."""
    node.call(f"publish 100 0 {cycle * 1e6:.0f} 0 0 0 {HOST}:{sink.getsockname()[1]}")
    node.call("put 1 0a0b")


def telegrams(node: Started, seconds: float, cycle: float) -> tuple[list[float], float]:
    """When the telegrams of a publisher with that cycle came, in seconds, and the share of a processor that the node
    took meanwhile."""
    with stamped() as sink:
        publish(node, sink, cycle)
        found = watched(node, sink, seconds)
    return [moment for moments in found.moments.values() for moment in moments], found.processor


def lateness(came: Sequence[float], cycle: float) -> list[float]:
    """How much later than the earliest each telegram left, in microseconds, if one is due in each cycle. Half of them
    are on time, and none is three quarters of a cycle late. A due time that was missed has no telegram, so each
    telegram belongs to the last due time before it."""
    phases = [(moment - came[0]) % cycle for moment in came]
    usual = share(phases, 0.5)
    behind = [(phase - usual + cycle / 4) % cycle * 1e6 for phase in phases]
    earliest = min(behind)
    return [it - earliest for it in behind]


def answer_times(node: Started, pause: Callable[[], float], count: int) -> list[float]:
    """How long calls wait for their answers, in microseconds, if the caller sleeps until the answer comes."""
    times = []
    for _ in range(count):
        time.sleep(pause())
        start = time.perf_counter()
        node.call("get 1")
        times.append((time.perf_counter() - start) * 1e6)
    return times


def awake_times(node: Started, count: int) -> list[float]:
    """How long calls wait if the caller never sleeps: it polls its socket until the answer comes, and polls the clock
    in a pause. So the time that the system takes to wake the caller does not count."""
    times, caller, clock = [], node.clients[0], time.perf_counter
    for _ in range(count):
        start = clock() + random.uniform(0.0005, 0.0015)
        while clock() < start:
            pass
        start = clock()
        caller.send(b"get 1")
        while clock() < start + PATIENCE:
            with contextlib.suppress(BlockingIOError):
                caller.recv(128, socket.MSG_DONTWAIT)
                break
        else:
            sys.exit(f"nothing answers a call within {PATIENCE} seconds")
        times.append((clock() - start) * 1e6)
    return times


def short_while() -> float:
    """A pause in seconds after which a call finds the node quiet."""
    return random.uniform(0.005, 0.05)


def brief_while() -> float:
    """A pause in seconds while a port is flooded and the node is never quiet."""
    return 0.001


def attended(node: Started, sink: socket.socket, cycle: float, seconds: float, calls: int) -> Attended:
    """Watches what the publishers of a node send, which all have that cycle, and then makes calls."""
    found = watched(node, sink, seconds)
    answers = answer_times(node, short_while, calls)
    if not found.moments:
        sys.exit("no telegram came")
    late = [it for moments in found.moments.values() for it in lateness(moments, cycle)]
    first = next(iter(found.moments.values()))[0]
    phases = [share([(it - first) % cycle for it in moments], 0.5) for moments in found.moments.values()]
    return Attended(found.processor, late, answers, phases)


@contextlib.contextmanager
def beside(flooded: str, program: str, kind: Sequence[str] = DAEMON, slots: int = 2, processes: int = 1,
           is_apart: bool = False, is_real_time: bool = False) -> Iterator[tuple[Node, list[int]]]:
    """A node with that many slots, after its first calls, and the numbers of the processes that flood one of its ports.
    The caller, the node and the flood are kept apart from each other or not. The node and the flood may be under
    SCHED_FIFO."""
    port_of, datagram = FLOODS[flooded]
    with Node(program, kind, slots) as node, flooding(port_of(node), datagram, processes) as children:
        with apart([node.process.pid, *children]) if is_apart else contextlib.nullcontext():
            if is_real_time:
                put_first([node.process.pid, *children])
            answer_times(node, brief_while, FIRST)
            yield node, children
