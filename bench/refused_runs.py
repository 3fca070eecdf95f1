#!/usr/bin/env python3
"""Plays scripts through `trdpd run` while one call of the program is refused, each in turn.

    bench/refused_runs.py [PROGRAM]             default: crates/trdpd/out/trdpd (./run prove builds it)

A call is a request for memory, a read of the configuration's file, a read of the script, or a write of the output;
reads and writes pass on a byte at a time, some bytes, so that they end within lines, or all. How a run may end
is in docs/SCRIPT.md:

    memory    status 4 with `memory fault`, and the text of some first lines of the script, or status 1 with `config
              fault OutOfMemory` and no text; or all is as without refusal. A later request that is refused leaves no
              less text.
    config    status 1 with `config fault Unreadable`, and no text
    read      status 4 with `read fault`, and the text of exactly the lines that had come whole
    write     status 4 with `write fault`, and what the writes before passed on

A line has the script, the kind of calls, the bytes that one passes on, how many there are, how many runs came to each
end, and how many failed. Then come a script that takes 72,019 reads, and writes that are interrupted. The exit status
is 0 where nothing failed, and else 1. gcc must be on PATH.
"""
from __future__ import annotations

import collections
import os
import struct
import subprocess
import sys
import tempfile
import zlib
from typing import Any

from refused import BENCH, Library, built

# Lines of a script, each with the text that it gives.
Lines = list[tuple[str, str]]
# A status, and what is on the error stream and in the output.
End = tuple[int, str, str]

# Two applications with all kinds of objects, and two datasets.
SLOT = """\
[[slot]]
publishers = 4
subscriptions = 4
requesters = 1
listeners = 2
callers = 2
repliers = 1
"""
CONFIG = f"""\
[node]
address = "10.0.0.1"
{SLOT}{SLOT}[[dataset]]
id = 1001
element = [{{ type = "UINT8" }}, {{ type = "UINT16", size = 0 }}]
[[dataset]]
id = 1002
element = [{{ type = "INT16" }}, {{ type = 15 }}, {{ type = 1001 }}]
"""
WHOLE = 65536
# The bytes that a read passes on, or a write where writes are refused.
PIECES = {"memory": (1, WHOLE), "config": (7,), "read": (1, 50, WHOLE), "write": (1, 50)}
PD_PLACE = "10.0.0.2:17224"
MD_PLACE = "10.0.0.2:17225"
SESSION = "00000000-0000-0000-0000-000000000001"


def with_check(head: bytes, payload: bytes) -> str:
    """A telegram's text: its header, the frame check of that, the payload, and zeros up to a multiple of four."""
    return (head + struct.pack("<I", zlib.crc32(head)) + payload + bytes(-len(payload) % 4)).hex()


def data(com_id: int, payload: bytes) -> str:
    """Process data with counter 0, without topology counters."""
    return with_check(struct.pack(">IH2s7I", 0, 0x0100, b"Pd", com_id, 0, 0, len(payload), 0, 0, 0), payload)


def message(kind: bytes, com_id: int, time: int, payload: bytes) -> str:
    """A message of session 1, without topology counters, status and URIs."""
    head = struct.pack(">IH2s4Ii", 0, 0x0100, kind, com_id, 0, 0, len(payload), 0)
    return with_check(head + (1).to_bytes(16, "big") + struct.pack(">I", time) + bytes(64), payload)


def publish(slot: int, com_id: int, cycle: int) -> str:
    return f"call {slot} publish {com_id} 0 {cycle} 0 0 0 {PD_PLACE}\n"


def request(slot: int) -> tuple[str, str]:
    """A call that sends a request, and its text."""
    line = f"call {slot} request 300 {SESSION} 1 1000000 - - 0 0 {MD_PLACE} 0d\n"
    return line, f"{slot} handle 1\n{slot} send md {MD_PLACE} {message(b'Mr', 300, 1000000, bytes([0x0d]))}\n"


def replied(slot: int) -> str:
    return f"{slot} replied 1 {MD_PLACE} Mp 0 301 0c\n{slot} closed 1 Done\n"


def sent(slot: int, com_id: int, payload: bytes) -> str:
    return f"{slot} send pd {PD_PLACE} {data(com_id, payload)}\n"


# Scripts: the lines, each with the text that it gives. The last line of the first one has a fault.
SCRIPTS: dict[str, Lines] = {
    "up to a bad line": [
        (publish(0, 100, 100000).replace("\n", "\r\n"), "0 handle 1\n"),
        ("\n", ""),
        ("call 0 put 1 0a0b\n", "0 done\n"),
        ("moment 100000\n", sent(0, 100, b"\x0a\x0b")),
        ("moment 5\n", "fault Past\n"),
        ("moment", ""),
    ],
    "a publisher's first telegram": [
        (publish(0, 100, 100000), "0 handle 1\n"),
        ("call 0 put 1 0a0b\n", "0 done\n"),
        ("moment 100000\n", sent(0, 100, b"\x0a\x0b")),
    ],
    "three publishers of two slots": [
        (publish(0, 1, 100000), "0 handle 1\n"),
        (publish(1, 2, 50000), "1 handle 1\n"),
        (publish(0, 3, 100000), "0 handle 2\n"),
        ("call 0 put 1 00\n", "0 done\n"),
        ("call 1 put 1 00\n", "1 done\n"),
        ("call 0 put 2 00\n", "0 done\n"),
        ("moment 100000\n", sent(0, 1, b"\0") + sent(0, 3, b"\0") + sent(1, 2, b"\0")),
    ],
    "one session in two slots": [
        request(0),
        request(1),
        (f"md {MD_PLACE} 10.0.0.1:17225 {message(b'Mp', 301, 0, bytes([0x0c]))}\n", replied(0) + replied(1)),
    ],
}


def text_of(lines: Lines, count: int) -> str:
    """What the script gives for the lines that end within that many bytes of it."""
    text, end = "", 0
    for line, gives in lines:
        end += len(line)
        if end > count:
            break
        text += gives
    return text


def whole_of(lines: Lines) -> End:
    """How a script ends where nothing is refused."""
    output = "".join(gives for _, gives in lines)
    status, errors = (3, f"line {len(lines)} fault Count\n") if lines[-1][0] == "moment" else (0, "")
    return status, errors, output


def end_of(lines: Lines, kind: str, piece: int, number: int, ran: subprocess.CompletedProcess[str]) -> str | None:
    """How a run ended in which that call was refused; None where it may not end so."""
    whole = whole_of(lines)
    end = ran.returncode, ran.stderr, ran.stdout
    allowed: dict[str, list[End]]
    if kind == "memory":
        fronts = ["".join(gives for _, gives in lines[:count]) for count in range(len(lines))]
        allowed = {"memory fault": [(4, "memory fault\n", front) for front in fronts],
                   "config fault OutOfMemory": [(1, "config fault OutOfMemory\n", "")],
                   "no fault": [whole]}
    else:
        before = piece * (number - 1)
        allowed = {"config": {"config fault Unreadable": [(1, "config fault Unreadable\n", "")]},
                   "read": {"read fault": [(4, "read fault\n", text_of(lines, before))]},
                   "write": {"write fault": [(4, "write fault\n", whole[2][:before])]}}[kind]
    return next((name for name, ends in allowed.items() if end in ends), None)


def failures(library: Library, words: list[str], name: str, lines: Lines, kind: str, piece: int) -> int:
    """Refuses each call of a kind in turn, prints how the runs ended, and answers how many failed."""
    # Where a write is refused the script comes at once, and its text leaves from one place.
    passes_on = "write_piece" if kind == "write" else "read_piece"
    settings: dict[str, Any] = {"input": "".join(line for line, _ in lines), passes_on: piece}
    calls, whole = library.count(words, kind, **settings)
    if (whole.returncode, whole.stderr, whole.stdout) != whole_of(lines) or calls == 0:
        print(f"{name}: not as it should be where nothing is refused\n{whole.stdout}{whole.stderr}", end="")
        return 1
    ends: collections.Counter[str | None] = collections.Counter()
    failed = least = 0
    for number in range(1, calls + 1):
        ran = library.run(words, refused=(kind, number), **settings)
        end = end_of(lines, kind, piece, number, ran)
        if end is None or len(ran.stdout) < least:
            failed += 1
            print(f"{name}, {kind} {number}: status {ran.returncode}\n{ran.stdout}{ran.stderr}", end="")
        elif end != "no fault":
            least = len(ran.stdout)
        ends[end] += 1
    told = ", ".join(f"{count} {end}" for end, count in ends.items() if end)
    print(f"{name}, {kind}, {piece}: {calls} calls, each refused in turn: {told}; {failed} runs failed")
    return failed


def comes_byte_by_byte(library: Library, words: list[str]) -> int:
    """Whether a script runs to its end that takes 72,019 reads, more than a number of 16 bits counts; answers 1 where
    it doesn't."""
    script = "# remark\n" * 8000 + "moment 5\nmoment 4\n"
    reads, ran = library.count(words, "read", input=script, read_piece=1)
    print(f"byte by byte: {reads} reads, status {ran.returncode}, {ran.stdout}", end="")
    return int((reads, ran.returncode, ran.stdout, ran.stderr) != (len(script) + 1, 0, "fault Past\n", ""))


def writes_are_interrupted(library: Library, words: list[str]) -> int:
    """How a script ends whose writes pass on a byte after 999 interruptions in a row, or after 1,000, which are a
    fault; answers how many of the two fail.
    """
    lines = SCRIPTS["up to a bad line"]
    text, whole = "".join(line for line, _ in lines), whole_of(lines)
    failed = 0
    for every, count, ends in ((1000, 1000 * len(whole[2]), whole), (1001, 1000, (4, "write fault\n", ""))):
        writes, ran = library.count(words, "write", input=text, write_piece=1, write_every=every)
        print(f"interrupted but for one in {every}: {writes} writes, status {ran.returncode}")
        failed += (writes, (ran.returncode, ran.stderr, ran.stdout)) != (count, ends)
    return failed


def main(program: str) -> int:
    if not os.path.exists(program):
        sys.exit(f"refused_runs.py: {program} is missing: ./run prove builds it")
    failed = 0
    with built() as library, tempfile.TemporaryDirectory() as folder:
        config = os.path.join(folder, "node.toml")
        with open(config, "w") as file:
            file.write(CONFIG)
        words = [program, "run", config]
        for name, lines in SCRIPTS.items():
            for kind, piece in [(kind, piece) for kind, pieces in PIECES.items() for piece in pieces]:
                failed += failures(library, words, name, lines, kind, piece)
        failed += comes_byte_by_byte(library, words) + writes_are_interrupted(library, words)
    return 1 if failed else 0


if __name__ == "__main__":
    default = os.path.join(os.path.dirname(BENCH), "crates", "trdpd", "out", "trdpd")
    sys.exit(main(*(sys.argv[1:2] or [default])))
