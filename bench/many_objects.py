#!/usr/bin/env python3
"""What an event costs where slots have many objects: nanoseconds of processor time of `trdpd run`.

    bench/many_objects.py [LINES] [PROGRAM] [--save]
                                  default: 400000 lines, crates/trdpd/out/trdpd (./run prove builds it)

Each row plays a script of LINES equal lines from a file to a file, with its number of objects open, and again without
them: the cost of a line is that of the longer script less that of its first half, the least of five runs. Reading and
printing a line is in it. Objects of one kind have comIds of their own; one of them is concerned. The telegrams' frame
checks are zlib's.
"""
from __future__ import annotations

import os
import pathlib
import struct
import subprocess
import sys
import tempfile
import zlib
from collections.abc import Callable, Iterable, Iterator

import results

TOP = os.path.dirname(os.path.dirname(os.path.abspath(__file__)))
RUNS = 5
COUNTS = [(1, 1), (16, 1), (64, 1), (256, 1), (1, 16), (256, 16)]     # objects a slot, slots
PLACES = "10.0.0.2:17224 10.0.0.1:17224"
TAKEN, UNKNOWN = 200, 7                                               # comIds of a subscription, and of none
LATE = 2**32 - 1                                                      # the longest cycle, in microseconds


def config(slots: int) -> str:
    """A configuration of that many slots, each with all the objects of each kind that there may be."""
    kinds = ("publishers", "subscriptions", "requesters", "listeners", "callers", "repliers")
    slot = "[[slot]]\n" + "".join(f"{kind} = 256\n" for kind in kinds)
    return '[node]\naddress = "10.0.0.1"\n' + slot * slots


def telegram(counter: int, com_id: int) -> str:
    head = struct.pack(">IH2s7I", counter, 0x0100, b"Pd", com_id, 0, 0, 8, 0, 0, 0)
    return (head + struct.pack("<I", zlib.crc32(head)) + struct.pack(">Q", counter)).hex()


def subscriptions(objects: int, slots: int) -> Iterator[str]:
    """One subscription is for the comId that is taken, and no other one is."""
    for slot in range(slots):
        for i in range(objects):
            com_id = TAKEN if slot == 0 and i == 0 else 1000 + slot * 256 + i
            yield f"call {slot} subscribe {com_id} 0 0.0.0.0 0.0.0.0 0.0.0.0 0 0 0 keep"


def publishers(objects: int, slots: int, cycle: int, first_cycle: int) -> Iterator[str]:
    """All have the one cycle but the first, which has its own."""
    for slot in range(slots):
        for i in range(objects):
            own = first_cycle if slot == 0 and i == 0 else cycle
            yield f"call {slot} publish {1000 + slot * 256 + i} 0 {own} 0 0 0 10.0.0.2:17224"
            yield f"call {slot} put {i + 1} 00"


def telegrams(com_id: int, count: int) -> Iterator[str]:
    return (f"pd {PLACES} {telegram(i * 16 % 2**32, com_id)}" for i in range(count))


def moments(step: int, count: int) -> Iterator[str]:
    return (f"moment {(i + 1) * step}" for i in range(count))


def seconds(program: str, settings: str, lines: Iterable[str]) -> float:
    """Processor time of one run over these lines, from a file to a file."""
    with tempfile.TemporaryFile() as script, tempfile.TemporaryFile() as out:
        script.write("".join(line + "\n" for line in lines).encode())
        script.seek(0)
        ran = subprocess.Popen([program, "run", settings], stdin=script, stdout=out)
        _, status, usage = os.wait4(ran.pid, 0)
        if status != 0:
            sys.exit(f"{program} ended with {status}")
        spent: float = usage.ru_utime + usage.ru_stime
        return spent


class Row:
    """That many equal lines after those that open the objects, with the acts of each line."""

    def __init__(self, name: str, opening: Iterable[str], lines: Callable[[int], Iterable[str]], count: int,
                 acts: int = 1) -> None:
        self.name, self.opening, self.lines, self.count, self.acts = name, list(opening), lines, count, acts

    def cost(self, program: str, settings: str) -> float:
        """Nanoseconds for each act of a line, of those after the first half."""
        first = self.count // 2
        half, whole = (self.seconds(program, settings, it) for it in (first, self.count))
        return (whole - half) / (self.count - first) / self.acts * 1e9

    def seconds(self, program: str, settings: str, count: int) -> float:
        """The least processor time of some runs over that many lines."""
        return min(seconds(program, settings, self.opening + list(self.lines(count))) for _ in range(RUNS))


def rows(objects: int, slots: int, count: int) -> Iterator[Row]:
    """The rows of that many objects in each of that many slots, of that many lines."""
    all_of = objects * slots
    yield Row("taken", subscriptions(objects, slots), lambda n: telegrams(TAKEN, n), count)
    yield Row("nobody's", subscriptions(objects, slots), lambda n: telegrams(UNKNOWN, n), count)
    yield Row("nothing due", publishers(objects, slots, LATE, LATE), lambda n: moments(0, n), count)
    yield Row("one due", publishers(objects, slots, LATE, 1000), lambda n: moments(1000, n), count)
    yield Row("each of all due", publishers(objects, slots, 1000, 1000), lambda n: moments(1000, n),
              max(count // all_of, 20), all_of)


def main() -> None:
    parser = results.arguments(__doc__)
    parser.add_argument("lines", nargs="?", type=int, default=400_000)
    parser.add_argument("program", nargs="?", type=pathlib.Path, default=results.PROGRAM)
    given = parser.parse_args()
    found = []
    print("objects a slot  slots   taken nobody's nothing due  one due  each of all due")
    for objects, slots in COUNTS:
        with tempfile.NamedTemporaryFile("w", suffix=".toml") as settings:
            settings.write(config(slots))
            settings.flush()
            taken, unknown, idle, one, each = (it.cost(str(given.program), settings.name)
                                               for it in rows(objects, slots, given.lines))
        found.append({"objects": objects, "slots": slots, "accepted_ns": taken, "nobodys_ns": unknown,
                      "nothing_due_ns": idle, "one_due_ns": one, "each_due_ns": each})
        print(f"{objects:14}{slots:7}{taken:8.0f}{unknown:9.0f}{idle:12.0f}{one:9.0f}{each:17.0f}", flush=True)
    if given.save:
        results.save("many_objects", {"rows": found}, proved=results.is_proved(given.program))


if __name__ == "__main__":
    main()
