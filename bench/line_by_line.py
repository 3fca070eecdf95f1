#!/usr/bin/env python3
"""Whether `trdpd run` answers each line of a pipe before the next one is written.

    bench/line_by_line.py [PROGRAM]               default: crates/trdpd/out/trdpd (./run prove builds it)

Writes a line, waits for what it gives, and then writes the next one; the last lines come in two pieces, and have no
answer before they are whole. Prints how many lines were answered. The status is 0 where all were, and nothing else
came.
"""
from __future__ import annotations

import os
import select
import subprocess
import sys
from typing import IO

TOP = os.path.dirname(os.path.dirname(os.path.abspath(__file__)))
# How many seconds an answer is waited for: it takes less than a millisecond on a machine that does nothing else.
PATIENCE = 60.0
# How long nothing has to come after a piece of a line.
QUIET = 0.1
LINES: list[tuple[str, list[str]]] = [
    ("call 0 publish 100 0 100000 0 0 0 10.0.0.2:17224", ["0 handle 1"]), ("call 0 put 1 0a0b", ["0 done"]),
    ("moment 100000", ["0 send pd 10.0.0.2:17224 0000000001005064000000640000000000000000000000020000000000000000"
                       "00000000ec179c940a0b0000"]),
    ("moment 5", ["fault Past"]), ("# get 1", []), ("call 2 get 1", ["fault NoSlot"]),
    *[(f"call 0 get {it}", ["0 refused NoHandle"]) for it in range(2, 12)],
]


class Wrong(Exception):
    """What the program must not do."""


def read_some(output: IO[bytes], seconds: float) -> bytes:
    """What comes at once, and nothing where nothing comes for so long."""
    ready, _, _ = select.select([output], [], [], seconds)
    return os.read(output.fileno(), 65536) if ready else b""


def read_lines(output: IO[bytes], count: int) -> list[str]:
    """That many lines, or fewer where no more come."""
    said = b""
    while said.count(b"\n") < count and (some := read_some(output, PATIENCE)):
        said += some
    return said.decode().splitlines()


def ask(ran: subprocess.Popen[bytes], line: str, wanted: list[str], cut: int) -> None:
    """Writes a line, in two pieces where it is to be cut, and has it answered so."""
    assert ran.stdin and ran.stdout
    if cut:
        ran.stdin.write(line[:cut].encode())
        if said := read_some(ran.stdout, QUIET):
            raise Wrong(f"{line[:cut]!r} is answered by {said!r}")
    ran.stdin.write(f"{line[cut:]}\n".encode())
    found = read_lines(ran.stdout, len(wanted))
    if found != wanted:
        raise Wrong(f"{line!r} is answered by {found} within {PATIENCE} s, where {wanted} was wanted")


def main(words: list[str]) -> int:
    program = words[0] if words else f"{TOP}/crates/trdpd/out/trdpd"
    command = [program, "run", f"{TOP}/examples/node.toml"]
    ran = subprocess.Popen(command, stdin=subprocess.PIPE, stdout=subprocess.PIPE, bufsize=0)
    asked = 0
    try:
        for cut in (0, 6):
            for line, wanted in LINES if not cut else LINES[-2:]:
                ask(ran, line, wanted, cut)
                asked += 1
        rest, _ = ran.communicate(timeout=PATIENCE)
    finally:
        ran.kill()
    if rest or ran.returncode:
        raise Wrong(f"at the end come {rest!r} and status {ran.returncode}")
    print(f"{asked} lines, each answered before the next")
    return 0


if __name__ == "__main__":
    try:
        sys.exit(main(sys.argv[1:]))
    except (Wrong, OSError, subprocess.TimeoutExpired) as fault:
        sys.exit(f"line_by_line.py: {fault}")
