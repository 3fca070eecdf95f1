#!/usr/bin/env python3
"""What it costs to reset a slot.

    bench/reset.py [SECONDS] [PROGRAM] [--save]   default: 20 seconds, crates/trdpd/out/trdpd (./run prove builds it)

First how long the answer to `reset` takes over a control port of `trdpd serve`, where the node has 16 slots and each
has all its 1,536 objects, 256 of each kind, beside one of a slot that has none: in turns, the median of each. Then how
much later than the earliest the telegrams of a publisher of 10 ms leave `trdpd daemon`, by the system's stamp at the
socket that they come to, while the slot beside it fills and resets itself without end; and the same while that slot
does nothing. All is at 127.0.0.1.
"""
from __future__ import annotations

import contextlib
import pathlib
import socket
import statistics
import sys
import time
from collections.abc import Iterable, Iterator, Sequence
from functools import partial

import results
from alone.telegrams import Message, write_md
from daemons.nodes import DAEMON, HOST, SERVE, Node, forked
from daemons.times import share, telegrams

SLOTS, OBJECTS = 16, 256
KINDS = ("publishers", "subscriptions", "requesters", "listeners", "callers", "repliers")
QUOTAS = "".join(f"{kind} = {OBJECTS}\n" for kind in KINDS)
ROUNDS = 15
NOWHERE = f"{HOST}:9"                              # no one is there
LATE = 2**32 - 1                                  # the longest time, in microseconds
CYCLE = 0.01                                      # seconds


def calls(count: int) -> Iterator[str]:
    """The lines by which a slot gets that many objects of each kind but repliers. Their comIds are one another's
    neighbours."""
    for i in range(count):
        yield f"publish {1000 + i} 0 {LATE} 0 0 0 {NOWHERE}"
        yield f"subscribe {1000 + i} 0 0.0.0.0 0.0.0.0 0.0.0.0 0 0 {LATE} keep"
        yield f"openpull {1000 + i} 0 0.0.0.0 0 0 {NOWHERE}"
        yield f"listen {1000 + i} 0.0.0.0 0.0.0.0 0.0.0.0 - 0 0"
        yield f"request 1 00000000-0000-0000-0000-{i:012x} 0 {LATE} - - 0 0 {NOWHERE} -"


class FullNode(Node):
    """A node of 16 slots that may have 256 objects of each kind."""

    def __init__(self, program: str, words: Sequence[str] = SERVE) -> None:
        super().__init__(program, words, SLOTS, QUOTAS)
        self.peer = socket.socket(socket.AF_INET, socket.SOCK_DGRAM)
        self.sessions = 2**64

    def heard(self, slots: Iterable[int]) -> None:
        """Has 256 requests come in. Each of these slots answers by a line for each of them."""
        for _ in range(OBJECTS):
            self.sessions += 1
            asked = write_md(Message("Mr", 1000, b"", session=self.sessions, time=LATE))
            self.peer.sendto(asked, (HOST, self.md))
            for slot in slots:
                self.clients[slot].recv(256)

    def fill(self, slot: int) -> None:
        for line in calls(OBJECTS):
            if " handle " not in (told := self.call(line, slot)):
                sys.exit(f"{line}: {told}")

    def timed_reset(self) -> float:
        """How long the answer to a reset of slot 0 takes, in microseconds."""
        start = time.perf_counter()
        told = self.call("reset")
        taken = (time.perf_counter() - start) * 1e6
        return taken if told == "0 done" else sys.exit(told)


def resets(program: str) -> tuple[float, float]:
    """How long a reset of slot 0 takes that has all its objects, and one that has none: the median of each, in
    microseconds."""
    node = FullNode(program)
    for slot in range(1, SLOTS):
        node.fill(slot)
    node.heard(range(1, SLOTS))
    full, empty = [], []
    for _ in range(ROUNDS):
        node.fill(0)
        # The other slots have all the repliers that they may: each says so by `overrun`.
        node.heard(range(SLOTS))
        full.append(node.timed_reset())
        empty.append(node.timed_reset())
    node.end()
    return statistics.median(full), statistics.median(empty)


def fill_and_reset(node: Node) -> None:
    """Fills slot 1 and resets it, without end."""
    while True:
        for line in [*calls(OBJECTS), "reset"]:
            node.call(line, 1)


def lateness(came: list[float]) -> list[float]:
    """How much later each telegram left than one that is on time, in microseconds. A moment that was missed has no
    telegram, so that the answer is how far each is after the moment before it: less than a cycle."""
    phases = [(moment - came[0]) % CYCLE for moment in came]
    usual = statistics.median(phases)
    behind = [(phase - usual + CYCLE / 4) % CYCLE * 1e6 for phase in phases]
    on_time = share(behind, 0.01)
    return [max(0, it - on_time) for it in behind]


def late(program: str, seconds: int, beside: bool) -> list[float]:
    """How late the telegrams of slot 0's publisher are, in microseconds, beside a slot that fills and resets itself or
    does nothing."""
    with Node(program, DAEMON, 2, QUOTAS) as node:
        with forked(partial(fill_and_reset, node)) if beside else contextlib.nullcontext():
            came, _ = telegrams(node, seconds, CYCLE)
    return lateness(came)


def main() -> None:
    parser = results.arguments(__doc__)
    parser.add_argument("seconds", nargs="?", type=int, default=20)
    parser.add_argument("program", nargs="?", type=pathlib.Path, default=results.PROGRAM)
    given = parser.parse_args()
    full, empty = resets(str(given.program))
    objects = OBJECTS * len(KINDS)
    print(f"reset of {objects} objects beside {objects * (SLOTS - 1)} others: {full:.0f} microseconds, "
          f"of none {empty:.0f}")
    found: dict[str, dict[str, float]] = {}
    for name, beside in (("alone", False), ("beside fills and resets", True)):
        times = late(str(given.program), given.seconds, beside)
        found["beside" if beside else "alone"] = {
            "median_us": share(times, 0.5), "p99_us": share(times, 0.99), "most_us": max(times), "samples": len(times)}
        print(f"late, {name}: median {share(times, 0.5):.0f}, 99 % {share(times, 0.99):.0f}, most {max(times):.0f} "
              "microseconds")
    if given.save:
        figures = {"objects": objects, "others": objects * (SLOTS - 1), "full_us": full, "empty_us": empty,
                   "late": found}
        results.save("reset", figures, proved=results.is_proved(given.program))


if __name__ == "__main__":
    main()
