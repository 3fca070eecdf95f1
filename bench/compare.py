#!/usr/bin/env python3
"""Whether one program needs more than another: the rows of instructions.py, many_objects.py and script_lines.py by
instructions, which any machine counts the same, and those of serve.py by time.

    bench/compare.py OTHER [PROGRAM]          default: crates/trdpd/out/trdpd (./run prove builds it); some ten minutes

A row has what OTHER and PROGRAM need, instructions or microseconds, and how many times as much PROGRAM needs. Of times
the least of seven runs counts, and the two run in turns, so that a while in which the machine is slow is slow for both.
rustc and valgrind must be on PATH.
"""
from __future__ import annotations

import sys
import tempfile
from collections.abc import Sequence

import instructions
import many_objects
import script_lines
import serve

ROUNDS = 7
TURNS = 200_000                                   # of a program that serves
LINES = 400                                       # of a script whose instructions are counted


def tell(name: str, costs: Sequence[float]) -> None:
    other, program = costs
    print(f"{name:50}{other:11.2f}{program:11.2f}{program / other:8.3f}", flush=True)


def count_lines(programs: list[str]) -> None:
    """Instructions of a line of each kind."""
    for rows in zip(*map(instructions.measured, programs)):
        tell(rows[0][0], [count for _, count in rows])


def count_objects(programs: list[str]) -> None:
    """Instructions of a line where slots have many objects."""
    for objects, slots in many_objects.COUNTS:
        for row in many_objects.rows(objects, slots, LINES):
            costs = [instructions.cost(it, slots, row.opening, row.lines, row.count, row.acts) for it in programs]
            tell(f"{row.name}, {objects} objects in {slots} slots", costs)


def count_scripts(programs: list[str]) -> None:
    """Instructions of a line of a mixed script."""
    opening = script_lines.OPEN
    costs = [instructions.cost(it, 1, opening, lambda n: list(script_lines.mixed(n + 2))[2:], LINES) for it in programs]
    tell("moment, put, telegram, get", costs)


def served(bench: serve.Bench, idle: float, row: serve.Row) -> float:
    """Microseconds for one of what the row measures, by one run."""
    turns = int(TURNS * row.scale)
    while True:
        seconds, totals = bench.serve(row, turns)
        if serve.counted(row, totals, turns) >= serve.FEW:
            return serve.share(row, seconds, totals, turns, idle / 1e6) * 1e6
        turns *= 2                                # the calls before took too many of them


def time_served(programs: list[str]) -> None:
    """Microseconds of a turn, or a datagram, over sockets."""
    with tempfile.TemporaryDirectory() as folder:
        benches = [serve.Bench(it, folder) for it in programs]
        idle = [0.0, 0.0]
        for row in serve.ROWS:
            rounds = [[served(*it, row=row) for it in zip(benches, idle)] for _ in range(ROUNDS)]
            costs = [min(times) for times in zip(*rounds)]
            if row is serve.IDLE:
                idle = costs
            tell(f"served: {row.name}", costs)


def main(words: list[str]) -> None:
    programs = [words[0], words[1] if len(words) > 1 else f"{many_objects.TOP}/crates/trdpd/out/trdpd"]
    print(f"{'instructions, and served microseconds':50}{'other':>11}{'program':>11}{'ratio':>8}")
    for compare in (count_lines, count_objects, count_scripts, time_served):
        compare(programs)


if __name__ == "__main__":
    if len(sys.argv) < 2:
        sys.exit(__doc__)
    main(sys.argv[1:])
