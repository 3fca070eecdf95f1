"""Measures `trdpd daemon` left running, compared with `trdpd serve`, which never sleeps.

Both have three ports and a publisher that sends every 100 ms. For each of them it prints

    processor     the share of a processor that it takes while nothing comes (user and system)
    late          how much later than the earliest telegram of the round a telegram left, by the system's time stamp at
                  the socket that receives it
    answer        how long a call waits for its answer, after a pause of 5 to 50 ms

Then it prints how long a call waits while a process floods a port: the control port of another slot, the port of
process data, or the port of message data. The first calls of a node that has just begun do not count there. At the end
it prints the daemon's memory: that of a small node as above, and that of a full node with 16 slots, which have all the
objects that they may have. Programs start with the timer slack that examples/systemd/trdpd.service gives the daemon.
"""
from __future__ import annotations

import argparse
import re
from collections.abc import Mapping, Sequence
from functools import partial

from daemons.nodes import DAEMON, FLOODS, SERVE, Node
from daemons.options import Figures, Programs, Subcommand, positive_seconds
from daemons.report import OTHER, PROGRAM, Row, attended_figures, head, ordered, row_of, sums, time_figures
from daemons.rounds import measured_rounds
from daemons.times import Attended, answer_times, attended, beside, brief_while, publish, short_while, stamped
from reset import KINDS, OBJECTS, SLOTS, FullNode

CYCLE = 0.1                                       # seconds
CALLS, FLOOD_CALLS = 40, 600                      # in a round, while nothing comes and while a port is flooded
SERVED = "serve"
NAMES = {PROGRAM: "daemon", SERVED: "serve", OTHER: "other"}
MEMORY = {"rss_kib": "VmRSS", "peak_kib": "VmHWM"}
# The program of each side, and the words of its command line.
Sides = Mapping[str, tuple[str, Sequence[str]]]


def times_of(it: list[float]) -> list[float]:
    """The times of a sample that has no others."""
    return it


def quiet_side(side: tuple[str, Sequence[str]], seconds: float) -> Attended:
    """A node at which nothing comes but calls."""
    with Node(side[0], side[1], 1) as node, stamped() as sink:
        publish(node, sink, CYCLE)
        return attended(node, sink, CYCLE, seconds, CALLS)


def flooded_side(side: tuple[str, Sequence[str]], flooded: str) -> list[float]:
    """How long calls wait while a port is flooded, in microseconds."""
    with beside(flooded, side[0], side[1]) as (node, _):
        return answer_times(node, brief_while, FLOOD_CALLS)


def quiet_round(sides: Sides, seconds: float, number: int) -> Mapping[str, Attended]:
    """A round of all sides without a flood."""
    return {name: quiet_side(side, seconds) for name, side in ordered(sides, number)}


def flooded_round(sides: Sides, flooded: str, number: int) -> Mapping[str, list[float]]:
    """A round of all sides while a port is flooded."""
    return {name: flooded_side(side, flooded) for name, side in ordered(sides, number)}


def memory_of(node: Node) -> dict[str, int]:
    """The memory of a node, in KiB."""
    with open(f"/proc/{node.process.pid}/status", encoding="ascii") as file:
        status = file.read()
    return {key: int(value[1]) for key, name in MEMORY.items()
            if (value := re.search(rf"(?m)^{name}:\s*(\d+) kB$", status))}


def small_memory(program: str) -> dict[str, int]:
    """The memory of a node with one publisher, after some calls."""
    with Node(program, DAEMON, 1) as node, stamped() as sink:
        publish(node, sink, CYCLE)
        answer_times(node, short_while, CALLS)
        return memory_of(node)


def full_memory(program: str) -> dict[str, int]:
    """The memory of a node with all the objects that 16 slots may have."""
    with FullNode(program, DAEMON) as node:
        for slot in range(SLOTS):
            node.fill(slot)
        node.heard(range(SLOTS))
        return memory_of(node)


def memory(programs: Mapping[str, str]) -> dict[str, object]:
    """The memory of the small node and of the full one. Prints it for each program."""
    found: dict[str, object] = {"full_objects": SLOTS * OBJECTS * len(KINDS)}
    for name, measured in (("small", small_memory), ("full", full_memory)):
        sides = {side: measured(program) for side, program in programs.items()}
        found[name] = sides[PROGRAM]
        print(f"memory, {name} node")
        for key, title in MEMORY.items():
            print(f"    {title:34}{'KiB':6}" + f"{'':28}".join(f"{it[key]:>14,}" for it in sides.values()), flush=True)
    return found


def measure(given: argparse.Namespace, programs: Programs) -> Figures:
    """Measures all rows, and prints them."""
    sides: dict[str, tuple[str, Sequence[str]]] = {side: (program, DAEMON) for side, program in programs.items()}
    sides[SERVED] = (programs[PROGRAM], SERVE)
    print(head(list(sides)))
    quiet = row_of("nothing comes", measured_rounds(given.rounds, partial(quiet_round, sides, given.seconds)),
                   list(sides), attended_figures())
    flooded: dict[str, Row] = {}
    for name in FLOODS:
        rounds = measured_rounds(given.rounds, partial(flooded_round, sides, name))
        flooded[name] = row_of(f"{name} flooded", rounds, list(sides),
                               time_figures(times_of, "answer", "answer"))
    return {"rounds": sums([quiet, *flooded.values()]), "seconds": given.seconds,
            "quiet": quiet.sides(NAMES), "flooded": {name: row.sides(NAMES) for name, row in flooded.items()},
            "memory": memory(programs)}


def add_options(parser: argparse.ArgumentParser) -> None:
    """Adds the options of this subcommand."""
    parser.add_argument("--seconds", type=positive_seconds, default=5.0,
                        help="seconds for which telegrams are watched in a round (default: %(default)s)")


REST = Subcommand("rest", "the load of an idle daemon, how late its telegrams are and how soon it answers; its memory",
                  __doc__ or "", 8, add_options, measure)
