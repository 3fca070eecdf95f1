"""Measures `trdpd daemon` that only has to send on time, compared with a loop without a node.

bench/bare_rest.rs, which rustc builds, is that loop. It sends at the times at which the program sent, and sleeps until
the next telegram is due: for at most a millisecond at once (`loop_pieces`), or in one piece (`loop_one`). After each
sleep it answers what came. The programs and the loops take turns. In a turn 100, 50 or 1 publishers send to a socket on
this machine, with their phases spread over the cycle. A turn begins when no gap between two phases is more than three
times the mean. For each of them it prints

    processor     the share of a processor that it takes (user and system)
    late          how much later than the earliest telegram of its publisher a telegram came, by the system's time stamp
    answer        how long a call waits for its answer, after a pause of 5 to 50 ms

Then it prints how the program compares with each loop, and whether it reaches the goals: at most 1.3 times the
processor time of the loop, and telegrams and answers at most 50 microseconds later.
"""
from __future__ import annotations

import argparse
import os
import shutil
import socket
import subprocess
import sys
import tempfile
import time
from collections.abc import Callable, Iterable, Iterator, Mapping
from contextlib import contextmanager
from dataclasses import dataclass
from functools import partial

from control_lines import free_ports
from daemons.nodes import DAEMON, HOST, TOP, Node, Started, flooding
from daemons.options import Figures, Programs, Subcommand, positive_seconds
from daemons.report import OTHER, PROGRAM, Row, attended_figures, head, ordered, row_of, sums
from daemons.rounds import measured_rounds
from daemons.times import NUMBER, Attended, answer_times, arrivals, attended, brief_while, stamped

TELEGRAMS = 300                                   # in a turn, at least
CALLS = 40                                        # in a turn
TRIES = 30                                        # until the phases are spread
PAYLOAD = 8                                       # bytes
TELEGRAM = 40 + PAYLOAD                           # bytes
ANSWER = len("0 refused WrongKind\n")
SPREAD = 3.0                                      # how many times the mean a gap between two phases may be
TIMES, LATER = 1.3, 50.0                          # the goals: the ratio of processor times, and microseconds later
PIECES, ONE = "loop_pieces", "loop_one"
NAMES = {PROGRAM: "daemon", OTHER: OTHER, PIECES: PIECES, ONE: ONE}
LATENESS = ("late.median_us", "late.p99_us", "answer.median_us", "answer.p99_us")


@dataclass(frozen=True)
class Publishers:
    """Publishers: how many, and their cycle in seconds."""

    count: int
    cycle: float

    def words(self) -> str:
        """How they are printed."""
        return f"{self.count} {'publisher' if self.count == 1 else 'publishers'}, every {self.cycle * 1e3:.0f} ms"


ROWS = [Publishers(100, 0.02), Publishers(50, 0.1), Publishers(1, 0.01)]
# Starts a program with these publishers, which send to that port. A loop takes these phases, in seconds.
Start = Callable[[Publishers, int, list[float]], Started]


def started_node(program: str, it: Publishers, sink: int, is_real_time: bool = False) -> Started:
    """A daemon with these publishers. The first cycle of a publisher begins when it is made, so they are made one after
    the other over the cycle. Meanwhile two floods keep the daemon awake, so that none is made late. With one flood it
    would sleep before a telegram is due. A publisher that is late waits for the next cycle."""
    node = Node(program, DAEMON, 1, f"publishers = {it.count}\n", is_real_time)
    try:
        with flooding(node.pd, b"wake", 2):
            answer_times(node, brief_while, 5)
            begin = time.monotonic()
            for number in range(it.count):
                time.sleep((begin + it.cycle * number / it.count - time.monotonic()) % it.cycle)
                node.call(f"publish {number} 0 {it.cycle * 1e6:.0f} 0 0 0 {HOST}:{sink}")
        if {node.call(f"put {number + 1} {bytes(PAYLOAD).hex()}") for number in range(it.count)} != {"0 done"}:
            sys.exit("the daemon refuses a put")
    except BaseException:
        node.end()
        raise
    return node


def started_loop(program: str, pieces: int, it: Publishers, sink: int, phases: list[float]) -> Started:
    """The loop with publishers of these phases, at as many ports as the daemon."""
    ports = free_ports(3)
    numbers = [round(it.cycle * 1e6), TELEGRAM, ANSWER, pieces, sink, *ports]
    with tempfile.TemporaryFile("w+") as file:
        file.write(" ".join(f"{phase * 1e6:.0f}" for phase in phases))
        file.seek(0)
        return Started([program, *map(str, numbers)], ports[2:], file)


def is_spread(it: Publishers, came: Iterable[tuple[float, bytes]]) -> bool:
    """Whether these telegrams are of all publishers, and spread over the cycle."""
    phases = sorted({telegram[NUMBER]: moment % it.cycle for moment, telegram in came}.values())
    gaps = [(after - phase) % it.cycle for phase, after in zip(phases, phases[1:] + phases[:1])]
    return len(phases) == it.count and max(gaps) <= SPREAD * it.cycle / it.count


@contextmanager
def spread(start: Start, it: Publishers, sink: socket.socket, phases: list[float]) -> Iterator[Started]:
    """A program whose publishers are spread. It is started again until they are, since the host, or a daemon that
    slept, may delay one of them."""
    for _ in range(TRIES):
        with start(it, sink.getsockname()[1], phases) as node:
            if is_spread(it, arrivals(sink, 2 * it.cycle)):
                yield node
                return
        for _ in arrivals(sink, it.cycle):
            pass
    sys.exit(f"{it.words()}: their phases were never spread over the cycle, since the machine does too much else")


def one_turn(start: Start, it: Publishers, phases: list[float], seconds: float) -> Attended:
    """A turn of a program with these publishers."""
    with stamped() as sink, spread(start, it, sink, phases) as node:
        found = attended(node, sink, it.cycle, max(seconds, TELEGRAMS * it.cycle / it.count), CALLS)
    if len(found.phases) != it.count:
        sys.exit(f"telegrams of {len(found.phases)} publishers came, not of {it.count}")
    return found


def one_round(daemons: Mapping[str, Start], loops: Mapping[str, Start], it: Publishers, seconds: float, number: int
              ) -> Mapping[str, Attended]:
    """A turn of each program, and then of each loop, which sleeps until the times at which the program sent."""
    found = {side: one_turn(start, it, [], seconds) for side, start in ordered(daemons, number)}
    phases = found[PROGRAM].phases
    return {**found, **{side: one_turn(start, it, phases, seconds) for side, start in ordered(loops, number)}}


def print_goals(row: Row, loop: str) -> None:
    """Prints how the program compares with a loop, and whether it reaches the goals."""
    figures = {it.figure.key: it.sides for it in row.figures}
    if not row.rounds["counted"]:
        return
    times = figures["processor"][PROGRAM] / figures["processor"][loop]
    later = [figures[key][PROGRAM] - figures[key][loop] for key in LATENESS]
    is_met = times <= TIMES and max(later) <= LATER
    print(f"    compared with {loop}: {times:.2f} times the processor time (at most {TIMES}), later by "
          f"{', '.join(f'{it:.0f}' for it in later)} us (at most {LATER:.0f}): {'met' if is_met else 'NOT MET'}",
          flush=True)


def built_loop(folder: str) -> str:
    """The loop, built in that folder."""
    if not shutil.which("rustc"):
        sys.exit("idle needs rustc on PATH, which builds bench/bare_rest.rs")
    program = os.path.join(folder, "bare_rest")
    subprocess.run(["rustc", "-O", "-o", program, str(TOP / "bench/bare_rest.rs")], check=True)
    return program


def daemon(program: str) -> Start:
    """How a daemon is started."""
    return lambda it, sink, _: started_node(program, it, sink)


def measure(given: argparse.Namespace, programs: Programs) -> Figures:
    """Measures all rows, and prints them."""
    rows = []
    daemons = {side: daemon(program) for side, program in programs.items()}
    with tempfile.TemporaryDirectory() as folder:
        loop = built_loop(folder)
        loops: dict[str, Start] = {PIECES: partial(started_loop, loop, 1), ONE: partial(started_loop, loop, 0)}
        sides = [*daemons, *loops]
        print(head(sides))
        for it in ROWS:
            rounds = measured_rounds(given.rounds, partial(one_round, daemons, loops, it, given.seconds))
            rows.append(row_of(it.words(), rounds, sides, attended_figures()))
            for name in loops:
                print_goals(rows[-1], name)
    return {"rounds": sums(rows), "seconds": given.seconds,
            "rows": [row.sides(NAMES) | {"publishers": it.count, "cycle_ms": round(it.cycle * 1e3)}
                     for it, row in zip(ROWS, rows)]}


def add_options(parser: argparse.ArgumentParser) -> None:
    """Adds the options of this subcommand."""
    parser.add_argument("--seconds", type=positive_seconds, default=1.0,
                        help="seconds of a turn, or more for 300 telegrams (default: %(default)s)")


IDLE = Subcommand("idle", "the load of a daemon that sends on time, beside a loop without a node", __doc__ or "", 6,
                  add_options, measure)
