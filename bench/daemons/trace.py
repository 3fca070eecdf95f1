"""Measures how long a node takes to answer a call while a port is flooded, as the system traces it.

The rows `node` are from the caller's send to the node's send, and the rows `caller` from there until the caller has the
answer. Floods and turns are as in `floods`. The caller, the node and the flood are kept apart, and the caller sleeps
until its answer comes. Only root can measure this. It needs tracefs at /sys/kernel/tracing, whose clock counts
microseconds, and makes a trace buffer of its own there.
"""
from __future__ import annotations

import argparse
import contextlib
import os
import re
import sys
from collections.abc import Iterator, Sequence

from daemons.floods import CALLS, Beside, Kinds, Times, measured_rows, result_rows
from daemons.nodes import FLOODS, Node
from daemons.options import Figures, Programs, Subcommand, positive
from daemons.report import head, sums
from daemons.times import answer_times, brief_while

TRACING = "/sys/kernel/tracing"
INSTANCE = f"{TRACING}/instances/trdp"
EVENT = "events/syscalls/sys_enter_sendto"
SEND = re.compile(r"-(\d+) .* (\d+)\.(\d{6}): sys_sendto")


def set_trace(name: str, words: str) -> None:
    """Writes a setting of the trace."""
    with open(f"{INSTANCE}/{name}", "w", encoding="ascii") as file:
        file.write(words)


def check_tracefs() -> None:
    """Ends the script if it may not trace."""
    try:
        if os.path.exists(f"{TRACING}/instances") or os.listdir(TRACING):
            return
        sys.exit(f"trace needs tracefs: mount -t tracefs tracefs {TRACING}")
    except PermissionError:
        sys.exit(f"trace needs root, who may use {TRACING}")
    except FileNotFoundError:
        sys.exit(f"trace needs tracefs, which this kernel does not have at {TRACING}")


def begin_tracing() -> None:
    """Has the system trace what is sent, as soon as a turn begins."""
    try:
        set_trace("tracing_on", "0")
        set_trace("trace_clock", "mono")
        set_trace(f"{EVENT}/enable", "1")
    except OSError as why:
        sys.exit(f"trace needs a kernel that traces system calls: {why}")


@contextlib.contextmanager
def tracing() -> Iterator[None]:
    """Has the system trace what is sent, meanwhile."""
    check_tracefs()
    try:
        os.makedirs(INSTANCE, exist_ok=True)
    except OSError as why:
        sys.exit(f"trace needs root and a trace buffer of its own: {why}")
    try:
        begin_tracing()
        yield
    finally:
        with contextlib.suppress(OSError):
            set_trace(f"{EVENT}/enable", "0")
        os.rmdir(INSTANCE)


def descriptor(process: int, port: int) -> int:
    """The file descriptor of a process's socket at a UDP port."""
    with open(f"/proc/{process}/net/udp", encoding="ascii") as file:
        sockets = [line.split() for line in file.readlines()[1:]]
    inode = next(it[9] for it in sockets if it[1].endswith(f":{port:04X}"))
    files = f"/proc/{process}/fd"
    return next(int(it) for it in os.listdir(files) if os.readlink(f"{files}/{it}") == f"socket:[{inode}]")


def begin_trace(nodes: Sequence[Node]) -> None:
    """Has the system trace what the caller sends, and what these nodes send to it. They also answer the flood of the
    other slot, but at another socket."""
    caller = os.getpid()
    answers = {it.process.pid: descriptor(it.process.pid, it.controls[0]) for it in nodes}
    set_trace("set_event_pid", " ".join(map(str, [caller, *answers])))
    kept = [f"common_pid == {pid} && fd == {fd}" for pid, fd in answers.items()]
    set_trace(f"{EVENT}/filter", " || ".join([f"common_pid == {caller}", *kept]))
    set_trace("trace", "")


def traced_times(node: Node) -> Times:
    """How long the node takes for each of some calls, in microseconds, and how long the caller then waits."""
    set_trace("tracing_on", "1")
    whole = answer_times(node, brief_while, CALLS)
    set_trace("tracing_on", "0")
    with open(f"{INSTANCE}/trace", encoding="ascii", errors="replace") as file:
        found = SEND.findall(file.read())[-2 * CALLS:]
    sends = [(int(pid), int(seconds + micros)) for pid, seconds, micros in found]
    if [pid for pid, _ in sends] != [os.getpid(), node.process.pid] * CALLS:
        sys.exit("the trace has other sends than the calls and their answers")
    own = [float(then - moment) for (_, moment), (_, then) in zip(sends[::2], sends[1::2])]
    return {"node": own, "caller": [it - by_node for it, by_node in zip(whole, own)]}


def measure(given: argparse.Namespace, programs: Programs) -> Figures:
    """Measures all rows, and prints them."""
    kinds = Kinds(("node", "caller"), traced_times, begin_trace)
    with tracing():
        print(head(list(programs)))
        rows = {it: measured_rows(programs, Beside(it, slots=given.slots), kinds, given.rounds) for it in FLOODS}
    return {"rounds": sums([row for of in rows.values() for row in list(of.values())[:1]]), "slots": given.slots,
            "rows": result_rows(rows, "part")}


def add_options(parser: argparse.ArgumentParser) -> None:
    """Adds the options of this subcommand."""
    parser.add_argument("--slots", type=positive, default=2, help="slots of the node (default: %(default)s)")


TRACED = Subcommand("trace", "how much of that time is the node's, by the system's trace (as root)", __doc__ or "", 20,
                    add_options, measure)
