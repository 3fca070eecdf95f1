"""Measures how long a call waits for its answer while processes send to a port of the node without end.

The port is the control port of another slot, the port of process data, or the port of message data. A turn has 20 calls
of a caller that sleeps until its answer comes (`sleeps`), and 20 calls of a caller that never sleeps (`looks`), after a
few that do not count. A round has 40 turns of each program. If there are two programs, each has a flood of its own, and
they take turns: one program runs, and the other one and its flood are stopped. So other work of the machine disturbs
both alike.

With `--placed apart` the caller, the node and the flood each have a processor of their own, if there are as many; with
`--placed free` the system places them. With --real-time all three run under SCHED_FIFO, and the machine needs one more
processor for everything else.
"""
from __future__ import annotations

import argparse
import contextlib
import os
import signal
import sys
from collections.abc import Callable, Iterator, Mapping, Sequence
from dataclasses import dataclass
from functools import partial

from daemons.nodes import FLOODS, PROCESSORS, Node, go_first
from daemons.options import Figures, Programs, Subcommand, positive
from daemons.report import OTHER, PROGRAM, Row, head, ordered, row_of, sums, time_figures
from daemons.rounds import Rounds, measured_rounds
from daemons.times import answer_times, awake_times, beside, brief_while

TURNS = 40                                        # of each program in a round
CALLS = 20                                        # in a turn, of each kind
AFRESH = 3                                        # calls of a node that was stopped, which do not count
APART, FREE = "apart", "free"
# Times in microseconds, by their kind.
Times = Mapping[str, list[float]]


@dataclass(frozen=True)
class Beside:
    """What floods each node, and how: whether caller, node and flood are kept apart, the node's slots, the processes
    that send, and whether all run under SCHED_FIFO."""

    flooded: str
    is_apart: bool = True
    slots: int = 2
    processes: int = 1
    is_real_time: bool = False


@dataclass(frozen=True)
class Kinds:
    """What is measured in a turn: the kinds of times, how they are measured, and what is done at the beginning of each
    round, when its nodes are there."""

    names: Sequence[str]
    turn: Callable[[Node], Times]
    begin: Callable[[Sequence[Node]], None]


@dataclass(frozen=True)
class Contender:
    """A node that is flooded, and the processes that send to it. They are stopped except in its turns."""

    node: Node
    processes: Sequence[int]

    def stop(self) -> None:
        """Stops the flood, and then the node, so that nothing waits at the node meanwhile."""
        for process in [*self.processes, self.node.process.pid]:
            os.kill(process, signal.SIGSTOP)

    def go_on(self) -> None:
        """Lets the node run, and then the flood."""
        for process in [self.node.process.pid, *self.processes]:
            os.kill(process, signal.SIGCONT)

    def turn(self, measured: Callable[[Node], Times]) -> Times:
        """Measures it in a turn."""
        self.go_on()
        answer_times(self.node, brief_while, AFRESH)
        found = measured(self.node)
        self.stop()
        return found


@contextlib.contextmanager
def contender(program: str, it: Beside) -> Iterator[Contender]:
    """A program's node and its flood, stopped. Both are killed at the end."""
    with beside(it.flooded, program, slots=it.slots, processes=it.processes, is_apart=it.is_apart,
                is_real_time=it.is_real_time) as (node, children):
        made = Contender(node, children)
        made.stop()
        yield made


def in_turns(sides: Mapping[str, Contender], kinds: Kinds) -> Mapping[str, Times]:
    """The turns of all sides."""
    found: dict[str, dict[str, list[float]]] = {side: {kind: [] for kind in kinds.names} for side in sides}
    for side, it in (pair for turn in range(TURNS) for pair in ordered(sides, turn)):
        for kind, times in it.turn(kinds.turn).items():
            found[side][kind] += times
    return found


def one_round(programs: Mapping[str, str], it: Beside, kinds: Kinds, _: int) -> Mapping[str, Times]:
    """A round of these programs."""
    with contextlib.ExitStack() as stack:
        sides = {side: stack.enter_context(contender(program, it)) for side, program in programs.items()}
        kinds.begin([side.node for side in sides.values()])
        found = in_turns(sides, kinds)
    return found


def times_of(kind: str) -> Callable[[Times], list[float]]:
    """A function that returns the times of that kind."""
    return lambda times: times[kind]


def measured_rows(programs: Mapping[str, str], it: Beside, kinds: Kinds, asked: int) -> dict[str, Row]:
    """Measures programs while they are flooded. Prints and returns a row for each kind of times."""
    rounds: Rounds[Mapping[str, Times]] = measured_rounds(asked, partial(one_round, programs, it, kinds))
    return {kind: row_of(f"{it.flooded} flooded, {kind}", rounds, list(programs),
                         time_figures(times_of(kind))) for kind in kinds.names}


def result_rows(rows: Mapping[str, Mapping[str, Row]], word: str) -> list[dict[str, object]]:
    """The rows as a result has them: what is flooded, the kind under this word, the pairs of turns, and the times."""
    return [{"flooded": flooded, word: kind, "pairs": row.rounds["counted"] * TURNS,
             **row.sides({PROGRAM: PROGRAM, OTHER: OTHER}), **({"later": row.later()} if row.later() else {})}
            for flooded, of in rows.items() for kind, row in of.items()]


def both_callers(node: Node) -> Times:
    """How long the calls of each kind of caller wait."""
    return {"sleeps": answer_times(node, brief_while, CALLS), "looks": awake_times(node, CALLS)}


def go_first_apart(given: argparse.Namespace) -> None:
    """Puts this process under SCHED_FIFO. Ends the script if node and flood would leave no processor to the others."""
    if given.placed != APART or given.processes + 2 >= len(PROCESSORS):
        sys.exit("--real-time needs --placed apart, and one processor more than caller, node and flood take")
    go_first()


def measure(given: argparse.Namespace, programs: Programs) -> Figures:
    """Measures all rows, and prints them."""
    if given.real_time:
        go_first_apart(given)
    kinds = Kinds(("sleeps", "looks"), both_callers, lambda nodes: None)
    print(head(list(programs)))
    floods = [Beside(flooded, given.placed == APART, given.slots, given.processes, given.real_time)
              for flooded in FLOODS]
    rows = {it.flooded: measured_rows(programs, it, kinds, given.rounds) for it in floods}
    return {"rounds": sums([row for of in rows.values() for row in list(of.values())[:1]]), "placed": given.placed,
            "slots": given.slots, "processes": given.processes, "real_time": given.real_time,
            "rows": result_rows(rows, "caller")}


def add_options(parser: argparse.ArgumentParser) -> None:
    """Adds the options of this subcommand."""
    parser.add_argument("--placed", choices=(APART, FREE), default=APART,
                        help="whether the caller, the node and the flood are kept apart (default: %(default)s)")
    parser.add_argument("--slots", type=positive, default=2, help="slots of the node (default: %(default)s)")
    parser.add_argument("--processes", type=positive, default=1,
                        help="processes that send to the port (default: %(default)s)")
    parser.add_argument("--real-time", action="store_true",
                        help="run the caller, the node and the flood under SCHED_FIFO, apart")


FLOODED = Subcommand("floods", "how soon a daemon answers while a port is flooded", __doc__ or "", 20, add_options,
                     measure)
