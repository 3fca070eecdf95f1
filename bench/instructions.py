#!/usr/bin/env python3
"""How many instructions `trdpd run` needs for a line, counted by valgrind, so that any machine counts the same.

    bench/instructions.py [PROGRAM] [--save]      default: crates/trdpd/out/trdpd (./run prove builds it)

A script of equal lines is played, and one of twice as many: the cost of a line is the difference. Reading and
printing are in it. Five kinds of lines: a call that puts two bytes, a telegram of process data that one of 4,096
subscriptions takes, a moment by which 256 publishers are due (counted for each telegram that it sends), a moment by
which nothing is due, and a request that one of 4,096 listeners hears with the call that replies to it.
"""
from __future__ import annotations

import pathlib
import re
import subprocess
import tempfile
from collections.abc import Callable, Iterable, Iterator

import results
from alone.telegrams import Message, write_md
from many_objects import LATE, TAKEN, config, moments, publishers, subscriptions, telegrams

LINES = 500
OBJECTS, SLOTS = 256, 16                          # of the telegram that is taken; a moment's publishers are of one slot


def puts(count: int) -> Iterator[str]:
    return ("call 0 put 1 0a0b" for _ in range(count))


def listeners(objects: int, slots: int) -> Iterator[str]:
    """One listener hears the comId that is asked for, and no other one does."""
    for slot in range(slots):
        for i in range(objects):
            com_id = TAKEN if slot == 0 and i == 0 else 1000 + slot * 256 + i
            yield f"call {slot} listen {com_id} 0.0.0.0 0.0.0.0 0.0.0.0 - 0 0"


def answered(count: int) -> Iterator[str]:
    """That many requests, each with its reply: the repliers' handles come after those of the listeners."""
    for i in range(count):
        asked = write_md(Message("Mr", TAKEN, bytes(8), session=i + 1, time=1_000_000)).hex()
        yield f"md 10.0.0.2:17225 10.0.0.1:17225 {asked}\ncall 0 reply {OBJECTS + 1 + i} 301 0 0c"


def instructions(program: str, settings: str, lines: Iterable[str]) -> int:
    """How many instructions a run over these lines takes."""
    with tempfile.TemporaryFile() as script, tempfile.NamedTemporaryFile() as told:
        script.write("".join(line + "\n" for line in lines).encode())
        script.seek(0)
        words = ["valgrind", "--tool=callgrind", f"--callgrind-out-file={told.name}", program, "run", settings]
        ran = subprocess.run(words, stdin=script, stdout=subprocess.DEVNULL, stderr=subprocess.PIPE, text=True,
                             check=True)
        found = re.search(r"Collected : (\d+)", ran.stderr)
        assert found is not None
        return int(found[1])


def cost(program: str, slots: int, opening: Iterable[str], lines: Callable[[int], Iterable[str]], count: int,
         acts: int = 1) -> float:
    """The instructions for each act of a line."""
    with tempfile.NamedTemporaryFile("w", suffix=".toml") as settings:
        settings.write(config(slots))
        settings.flush()
        opened = list(opening)
        once = instructions(program, settings.name, opened + list(lines(count)))
        twice = instructions(program, settings.name, opened + list(lines(2 * count)))
        return (twice - once) / count / acts


def measured(program: str) -> list[tuple[str, float]]:
    """The rows, each with its name."""
    return [
        ("put", cost(program, 1, publishers(1, 1, LATE, LATE), puts, LINES)),
        ("telegram taken", cost(program, SLOTS, subscriptions(OBJECTS, SLOTS), lambda n: telegrams(TAKEN, n), LINES)),
        ("telegram sent", cost(program, 1, publishers(OBJECTS, 1, 1000, 1000), lambda n: moments(1000, n), 20,
                               OBJECTS)),
        ("nothing due", cost(program, 1, publishers(OBJECTS, 1, LATE, LATE), lambda n: moments(0, n), LINES)),
        ("request, reply", cost(program, SLOTS, listeners(OBJECTS, SLOTS), answered, LINES)),
    ]


def main() -> None:
    parser = results.arguments(__doc__)
    parser.add_argument("program", nargs="?", type=pathlib.Path, default=results.PROGRAM)
    given = parser.parse_args()
    rows = measured(str(given.program))
    for name, count in rows:
        print(f"{name:16}{count:8.0f}")
    if given.save:
        found = [{"line": name, "instructions": round(count)} for name, count in rows]
        results.save("instructions", {"rows": found}, proved=results.is_proved(given.program))


if __name__ == "__main__":
    main()
