#!/usr/bin/env python3
"""Refuses one call of `trdpd daemon` at its control sockets, each in turn, while two applications make calls at two of
them.

    bench/refused_connections.py [PROGRAM]        default: crates/trdpd/out/trdpd (./run prove builds it)

A call accepts a connection, reads from one or writes to one, and is refused by EINTR, ENOMEM, EMFILE or ECONNRESET. One
application at the most may notice: its connection ends after the answers to some of its first calls. All calls of the
other one are answered, each once and in order; and so are both when they come again.

A line has the call and the error, how many runs there were, and in how many of them a connection ended. The exit status
is 0 where nothing failed, and else 1. gcc must be on PATH.
"""
from __future__ import annotations

import errno
import os
import socket
import subprocess
import sys
import tempfile
import time
from collections.abc import Iterable

from refused import BENCH, Library, built

HOST = "127.0.7.3"
PD, MD, FIRST = 18731, 18732, 18733
CALLS = 4
KINDS = ("accept", "receive", "send")
ERRORS = ("EINTR", "ENOMEM", "EMFILE", "ECONNRESET")
# How many calls are refused at most, one a run: a read that finds nothing is a call too, and there are as many as there
# are turns.
MOST = 40
# Seconds: a connection that wasn't accepted is accepted in a turn of the next second, or later on a slow machine.
PATIENCE = 30
CONFIG = f"""\
[node]
address = "{HOST}"
pd_port = {PD}
md_port = {MD}
""" + "".join(f"[[slot]]\npublishers = {CALLS}\ncontrol_port = {FIRST + slot}\n" for slot in range(2))
PUBLISH = b"publish 100 0 0 0 0 0 127.0.7.4:17224\n"


class Application:
    """The connection of an application at the path of a slot, and the answers that came."""

    def __init__(self, folder: str, slot: int) -> None:
        self.slot = slot
        self.socket = socket.socket(socket.AF_UNIX, socket.SOCK_STREAM)
        self.socket.settimeout(PATIENCE)
        self.came = b""
        self.is_over = False
        end = time.monotonic() + PATIENCE
        while True:
            try:
                self.socket.connect(os.path.join(folder, str(FIRST + slot)))
                return
            except (FileNotFoundError, ConnectionRefusedError):
                if time.monotonic() > end:
                    raise
                time.sleep(0.002)

    def say(self, line: bytes) -> None:
        try:
            self.socket.sendall(line)
        except (BrokenPipeError, ConnectionResetError):
            self.is_over = True

    def hear(self, answers: int) -> None:
        """Hears that many answers in all, or the end of the connection."""
        while not self.is_over and self.came.count(b"\n") < answers:
            try:
                more = self.socket.recv(4096)
            except ConnectionResetError:
                more = b""
            self.is_over = not more
            self.came += more

    def is_right(self, handles: Iterable[int]) -> bool:
        """Whether the answers that came are those to the first calls, whose handles begin with one of these; all of
        them, if it isn't over."""
        count = self.came.count(b"\n")
        wanted = [b"".join(b"%d handle %d\n" % (self.slot, first + it) for it in range(count)) for first in handles]
        return self.came in wanted and (self.is_over or count == CALLS)


def make_calls(folder: str) -> list[Application]:
    """Two applications that have made their calls, call by call beside each other."""
    both = [Application(folder, slot) for slot in range(2)]
    for number in range(1, CALLS + 1):
        for application in both:
            application.say(PUBLISH)
        for application in both:
            application.hear(number)
    for application in both:
        application.socket.close()
    return both


def are_right(first: list[Application], again: list[Application]) -> bool:
    """Whether all is as it should be with two applications, and with those that came again."""
    if sum(it.is_over for it in first + again) > 1:
        return False
    for before, behind in zip(first, again):
        # Of one that ended a call may have been made whose answer it didn't hear.
        least = before.came.count(b"\n") if before.is_over else CALLS
        if not before.is_right([1]) or not behind.is_right(range(least + 1, CALLS + 2)):
            return False
    return True


def run(library: Library, words: list[str], folder: str, kind: str, number: int, error: str) -> tuple[bool, bool, int]:
    """Runs a daemon of which a call is refused. Answers whether it was, whether all is as it should be, and how many
    connections ended."""
    environment = library.environment((kind, number), refused_error=getattr(errno, error))
    process = subprocess.Popen(words, env=environment, stderr=subprocess.PIPE, text=True)
    try:
        first, again = make_calls(folder), make_calls(folder)
        right, ended = are_right(first, again), sum(it.is_over for it in first + again)
        if not right:
            print(f"{kind} {number}, {error}: {[(it.came, it.is_over) for it in first + again]}")
    except OSError as fault:
        print(f"{kind} {number}, {error}: {fault!r}")
        right, ended = False, 0
    finally:
        process.kill()
        errors = process.communicate()[1]
    return f"refused {kind} {number}\n" in errors, right, ended


def main(program: str) -> int:
    if not os.path.exists(program):
        sys.exit(f"refused_connections.py: {program} is missing: ./run prove builds it")
    failed = 0
    with built() as library, tempfile.TemporaryDirectory() as folder:
        config = os.path.join(folder, "node.toml")
        with open(config, "w") as file:
            file.write(CONFIG)
        words = [program, "daemon", config, "--controls", folder]
        for kind in KINDS:
            for error in ERRORS:
                runs = ends = wrong = 0
                for number in range(1, MOST + 1):
                    was_refused, right, ended = run(library, words, folder, kind, number, error)
                    wrong += not right
                    if not was_refused:
                        break
                    runs, ends = runs + 1, ends + ended
                print(f"{kind}, {error}: {runs} calls, each refused in turn: {ends} connections ended; "
                      f"{wrong} runs failed")
                failed += wrong + (runs == 0)
    return 1 if failed else 0


if __name__ == "__main__":
    default = os.path.join(os.path.dirname(BENCH), "crates", "trdpd", "out", "trdpd")
    sys.exit(main(*(sys.argv[1:2] or [default])))
