"""The options that all subcommands of bench/daemon.py have, and the programs that they name."""
from __future__ import annotations

import argparse
import os
import pathlib
import sys
from collections.abc import Callable, Mapping
from dataclasses import dataclass

from daemons.report import OTHER, PROGRAM

Figures = Mapping[str, object]
# The path of the program of each side.
Programs = Mapping[str, str]


@dataclass(frozen=True)
class Subcommand:
    """A subcommand: what it measures, in a line and in full; how many rounds it makes; its own options; and the
    function that measures and returns the figures of its result."""

    name: str
    words: str
    description: str
    rounds: int
    add_options: Callable[[argparse.ArgumentParser], None]
    measure: Callable[[argparse.Namespace, Programs], Figures]


def positive(word: str) -> int:
    """A number of at least 1."""
    if (number := int(word)) < 1:
        raise ValueError
    return number


def positive_seconds(word: str) -> float:
    """A number of seconds above 0."""
    if not (number := float(word)) > 0:
        raise ValueError
    return number


def add_common(parser: argparse.ArgumentParser, it: Subcommand, program: pathlib.Path) -> None:
    """Adds the options that each subcommand has."""
    parser.add_argument("--program", type=pathlib.Path, default=program,
                        help="the program that is measured (default: the one that ./run prove builds)")
    parser.add_argument("--other", type=pathlib.Path, metavar="PROGRAM",
                        help="a second program, which is measured in turns with the first one")
    parser.add_argument("--rounds", type=positive, default=it.rounds,
                        help="rounds that must count for each row (default: %(default)s)")
    parser.add_argument("--save", action="store_true",
                        help=f"write the result into bench/results/daemon-{it.name}.json")


def programs_of(given: argparse.Namespace) -> Programs:
    """The programs that were named, by their sides. Ends the script if one is missing."""
    named = {PROGRAM: given.program, OTHER: given.other}
    programs = {side: str(path) for side, path in named.items() if path}
    for path in programs.values():
        if not (os.path.isfile(path) and os.access(path, os.X_OK)):
            sys.exit(f"there is no program at {os.path.relpath(path)}: ./run prove proves and builds one, ./run build "
                     "builds out/unproved/trdpd without proof")
    return programs
