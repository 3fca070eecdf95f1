#!/usr/bin/env python3
"""Measures `trdpd daemon`: its load, how late its telegrams are, how soon it answers, and what a telegram costs it.

    bench/daemon.py SUBCOMMAND [OPTION ..]
    bench/daemon.py SUBCOMMAND --help             what it measures and prints, and its options

With --other a second program is measured in turns with the first one, and the figures of both are printed side by side.
Then each line also has the difference. A sample is as many rounds as count, drawn from them with repeats. The
difference is the median of 200 samples. Nine tenths of these are between the two numbers in brackets, which need at
least five rounds.

A round counts if during it the host took away at most 1 % of one processor, and all processes other than those measured
used at most 10 % of one. The rule looks only at the machine, never at what was measured. Rounds go on until as many
count as were asked for, and at most three times as many are made.

All sockets are at 127.0.0.1. The exit status is 1 if something is missing that the subcommand needs.
"""
from __future__ import annotations

import argparse
import os
import pathlib
import signal
import sys

import results
from daemons import calls, floods, idle, rest, trace
from daemons.options import Programs, Subcommand, add_common, programs_of

SUBCOMMANDS = (rest.REST, floods.FLOODED, trace.TRACED, idle.IDLE, calls.COUNTED)


def parser() -> argparse.ArgumentParser:
    """The parser of all subcommands."""
    layout = argparse.RawDescriptionHelpFormatter
    made = argparse.ArgumentParser(description=__doc__, formatter_class=layout)
    subparsers = made.add_subparsers(metavar="SUBCOMMAND", required=True)
    for it in SUBCOMMANDS:
        of = subparsers.add_parser(it.name, help=it.words, description=it.description, formatter_class=layout)
        add_common(of, it, results.PROGRAM)
        it.add_options(of)
        of.set_defaults(subcommand=it)
    return made


def end(_number: int, _frame: object) -> None:
    """Ends the script as Ctrl-C does, so that nothing that it started stays behind."""
    raise KeyboardInterrupt


def print_programs(programs: Programs) -> None:
    """Prints which programs are measured."""
    for side, program in programs.items():
        state = "proved" if results.is_proved(pathlib.Path(program)) else "not proved"
        print(f"{side + ':':9}{os.path.relpath(program)}, {state}")


def main() -> int:
    """Measures what the subcommand says, and saves it if that was asked for."""
    given = parser().parse_args()
    subcommand: Subcommand = given.subcommand
    signal.signal(signal.SIGTERM, end)
    try:
        programs = programs_of(given)
        print_programs(programs)
        figures = subcommand.measure(given, programs)
    except KeyboardInterrupt:
        return 130
    if given.save:
        results.save(f"daemon-{subcommand.name}", figures, proved=results.is_proved(given.program))
    return 0


if __name__ == "__main__":
    sys.exit(main())
