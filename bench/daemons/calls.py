"""Counts the system calls that `trdpd daemon` makes for a telegram, and measures the processor time that it takes.

One subscription of slot 0 accepts telegrams of process data, and nothing else is due within an hour. The telegrams come
at equal distances, 2,000, 20,000 and 50,000 a second, and in bursts of 20 telegrams 60 us apart every 10 ms. The node
has 1 slot or 16 slots, each with a control port. In the row `sent` 100 publishers send every 20 ms, with their phases
spread over the cycle. In the row `flooded` two processes send as many telegrams as they can, and the daemon takes as
many of them as it can. Each row has the medians of its rounds:

    calls         system calls of the daemon for a telegram
    time          microseconds of its processor time for a telegram (user and system)
    a second      telegrams that were sent in a second; in the row `flooded`, telegrams that were taken
    processor     the share of a processor that the daemon takes

A telegram that the system drops does not count. The system says how many datagrams programs have taken from it, so no
other program should receive UDP meanwhile. perf counts the calls after the time was measured, so that counting costs no
time. If strace is there, it counts at the end which calls a telegram takes at 200 a second. With --real-time the node
and this script, which sends, run under SCHED_FIFO; the two processes of the row `flooded` do not.
"""
from __future__ import annotations

import argparse
import shutil
import statistics
import sys
from collections.abc import Callable, Mapping, Sequence
from contextlib import AbstractContextManager
from dataclasses import dataclass
from functools import partial

from daemons.counted import calls_by_perf, calls_by_strace, perf_counts
from daemons.nodes import Started, go_first
from daemons.options import Figures, Programs, Subcommand, positive_seconds
from daemons.report import NONE, OTHER, PROGRAM, Figure, Row, head, ordered, row_of, sums
from daemons.rounds import measured_rounds
from daemons.traffic import FLOWS, SLOW, Flow, Source, flooded, flow, sent

SLOTS = (1, 16)
NAMING = Flow("200 a second", 1, 0, 1 / 200)
NAMING_SECONDS = 1.0
CALLS, TIMES = 3.1, 1.1                           # the goals
FLOODED = "flooded"


@dataclass(frozen=True)
class Cost:
    """What a telegram costs: system calls, and microseconds of processor time; how many telegrams there were in a
    second, and the share of a processor that the node took."""

    calls: float
    time: float
    a_second: float
    processor: float


@dataclass(frozen=True)
class Measured:
    """What a row measures: its name, the slots of the node, and how a program and its telegrams are started."""

    name: str
    slots: int
    begin: Callable[[str, bool], AbstractContextManager[tuple[Started, Source]]]

    def figures(self) -> list[Figure[Cost]]:
        """The figures of its rounds."""
        rate = "taken" if self.name == FLOODED else "sent"
        return [median("calls", "calls", "", 2, lambda it: it.calls), median("us", "time", "us", 2, lambda it: it.time),
                median(f"{rate}_per_second", f"{rate} a second", "", 0, lambda it: it.a_second),
                median("processor", "processor", "%", 1, lambda it: it.processor, 100.0)]


@dataclass(frozen=True)
class Turn:
    """How a turn is made: for how many seconds, whether perf counts calls, and whether under SCHED_FIFO."""

    seconds: float
    is_counted: bool
    is_real_time: bool


def title(name: str, slots: int) -> str:
    """How a row of a node with that many slots is printed."""
    return f"{name}, {slots} {'slot' if slots == 1 else 'slots'}"


def median(key: str, words: str, unit: str, digits: int, of: Callable[[Cost], float], times: float = 1.0
           ) -> Figure[Cost]:
    """A figure that is the median of the rounds."""
    return Figure(key, words, unit, digits, lambda rounds: statistics.median(map(of, rounds)), times)


ROWS = [*(Measured(it.name, slots, partial(flow, it, slots)) for slots in SLOTS for it in FLOWS),
        Measured("sent", 1, sent), Measured(FLOODED, 1, flooded)]


def one_turn(row: Measured, program: str, turn: Turn) -> Cost:
    """Measures what a telegram costs a program: first the time, and then the calls, since counting takes time."""
    with row.begin(program, turn.is_real_time) as (node, source):
        used = node.used()
        found = source(turn.seconds)
        used = node.used() - used
        if not found.count:
            sys.exit(f"the daemon took or sent no telegram in the row {row.name}")
        calls = NONE
        if turn.is_counted:
            calls = calls_by_perf(node.process.pid, lambda: source(turn.seconds / 2).count)
    return Cost(calls, used / found.count * 1e6, found.sent / found.seconds, used / found.seconds)


def one_round(row: Measured, programs: Mapping[str, str], turn: Turn, number: int) -> Mapping[str, Cost]:
    """A turn of each program."""
    return {side: one_turn(row, program, turn) for side, program in ordered(programs, number)}


def print_names(programs: Mapping[str, str], is_real_time: bool) -> dict[int, dict[str, float]]:
    """Prints which calls a telegram takes at 200 a second. Returns the calls of the first program, by slots."""
    found: dict[int, dict[str, float]] = {}
    for slots in SLOTS:
        for side, program in programs.items():
            with flow(NAMING, slots, program, is_real_time) as (node, source):
                names = calls_by_strace(node.process.pid, lambda: source(NAMING_SECONDS).count)
            if side == PROGRAM:
                found[slots] = names
            words = ", ".join(f"{name} {count:.2f}" for name, count in names.items()) or "strace may not count here"
            print(f"{title(NAMING.name, slots)}, {side}: {sum(names.values()):.2f} calls: {words}", flush=True)
    return found


def print_goals(rows: Mapping[tuple[str, int], Row]) -> None:
    """Prints whether the program reaches the goals."""
    def figure(key: str, name: str, slots: int) -> float:
        return next(it.sides[PROGRAM] for it in rows[name, slots].figures if it.figure.key == key)

    few, many = min(SLOTS), max(SLOTS)
    calls = max(figure("calls", *of) for of in rows if FLOODED not in of)
    if calls == calls:
        print(f"at most {calls:.2f} calls (goal {CALLS}): {'met' if calls <= CALLS else 'NOT MET'}")
    for it in FLOWS:
        times = figure("us", it.name, many) / figure("us", it.name, few)
        if times == times:
            print(f"{it.name}: with {many} slots {times:.2f} times the time with {few} (goal {TIMES}): "
                  f"{'met' if times <= TIMES else 'NOT MET'}")


def result_rows(rows: Sequence[tuple[Measured, Row]], side: str, names: Mapping[int, Mapping[str, float]]
                ) -> list[dict[str, object]]:
    """The rows of a program as a result has them."""
    return [{"row": it.name, "slots": it.slots, "rounds": row.rounds, **row.of(side),
             **({"names": names[it.slots]} if it.name == SLOW.name and names.get(it.slots) else {})}
            for it, row in rows]


def measure(given: argparse.Namespace, programs: Programs) -> Figures:
    """Measures all rows, and prints them."""
    if given.real_time:
        go_first()
    turn = Turn(given.seconds, perf_counts(), given.real_time)
    has_strace = shutil.which("strace") is not None
    if not turn.is_counted:
        at_least = f"strace counts them at {NAMING.name}" if has_strace else "strace is missing too"
        print(f"perf is missing or may not count system calls here, so they are `-`; {at_least}", file=sys.stderr)
    print(head(list(programs)))
    rows = [(it, row_of(title(it.name, it.slots), measured_rounds(given.rounds, partial(one_round, it, programs, turn)),
                        list(programs), it.figures())) for it in ROWS]
    names = print_names(programs, given.real_time) if has_strace else {}
    print_goals({(it.name, it.slots): row for it, row in rows})
    return {"rounds": sums([row for _, row in rows]), "seconds": given.seconds, "real_time": given.real_time,
            "counted_by": "perf" if turn.is_counted else None, "rows": result_rows(rows, PROGRAM, names),
            **({OTHER: result_rows(rows, OTHER, {})} if OTHER in programs else {})}


def add_options(parser: argparse.ArgumentParser) -> None:
    """Adds the options of this subcommand."""
    parser.add_argument("--seconds", type=positive_seconds, default=2.0,
                        help="seconds in which telegrams are sent in a turn (default: %(default)s)")
    parser.add_argument("--real-time", action="store_true", help="run the sender and the node under SCHED_FIFO")


COUNTED = Subcommand("calls", "system calls and processor time for each telegram", __doc__ or "", 5, add_options,
                     measure)
