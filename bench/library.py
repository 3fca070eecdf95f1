#!/usr/bin/env python3
"""What the node costs a program in C that links it as a library.

    bench/library.py [LIBRARY] [--save]     default: crates/trdp_node/out/libtrdp_node.a (./run prove library builds it)

Prints, over a node of one slot with eight objects,
- how many nanoseconds a put of two bytes, a telegram that a subscription accepts, and a put as a line take: the least
  of 20 rounds of 100,000 calls; and a record, if a moment has 4,096;
- how many instructions the put and the telegram take, counted by valgrind, and how many of them are outside of
  `Node::step` and of what empties the list of records: those are the price of the call from C;
- the bytes of the library's code, those with its constants, and those of memory that a node takes at most to open;
- the bytes of stack: the bound that bench/stack.py finds for each function, and what calls took at most on a painted
  stack, over all rows and examples; and what opening takes if tables nest 80 and 6,400 deep in a configuration.
"""
from __future__ import annotations

import os
import pathlib
import re
import subprocess
import sys
import tempfile

import results
import record  # results finds it
import stack

TOP = results.TOP
NODE = TOP / "clients/c/node"
CALLS = 10000
POOL = ("-DPOOL_BYTES=67108864", TOP / "examples/embed/pool.c")
STEP = "trdp_engine::node::Node::step"
CLEAR = "trdp_node::latest::Records::clear"


def said(*words: str | pathlib.Path) -> str:
    """What a command prints."""
    return subprocess.run(words, check=True, capture_output=True, text=True).stdout


def numbers(text: str) -> dict[str, int]:
    """The numbers of lines as `put 117`, of a name that comes again the greatest one."""
    found: dict[str, int] = {}
    for name, number in (line.split() for line in text.splitlines()):
        found[name] = max(found.get(name, 0), int(number))
    return found


def compiled(program: pathlib.Path, library: pathlib.Path, *words: str | pathlib.Path) -> pathlib.Path:
    """A program, compiled of these files with the library."""
    said("gcc", "-std=gnu99", "-g", "-pthread", *words, library, "-o", program)
    return program


def instructions(program: pathlib.Path, kind: str, folder: pathlib.Path) -> tuple[int, int]:
    """The instructions of a call of a kind, and how many of them are the price of the call from C."""
    counted = folder / f"{kind}.counted"
    said("valgrind", "-q", "--tool=callgrind", f"--callgrind-out-file={counted}", program, kind, str(CALLS))
    text = said("callgrind_annotate", "--inclusive=yes", "--threshold=100", counted)
    found = {name: int(count.replace(",", "")) for count, name in
             re.findall(r"^ *([\d,]+) \([^)]*\) +\S*?:(\S+) \[", text, re.MULTILINE)}
    whole = found[f"one_{kind}"]
    # What the compiler has made part of another function isn't listed.
    inside = found.get(STEP, 0) + found.get(CLEAR, 0)
    return round(whole / CALLS), round((whole - inside) / CALLS) if STEP in found else -1


def painted(library: pathlib.Path, folder: pathlib.Path) -> dict[str, int]:
    """What calls take of a painted stack, over the rows, the examples and nested tables."""
    program = compiled(folder / "painted", library, "-O2", NODE / "painted.c", *POOL)
    noted = folder / "stacks"
    os.environ["STACKS"] = str(noted)
    said(TOP / "rows/play", program)
    for script in sorted((TOP / "examples").glob("**/*.script")):
        subprocess.run([program, "run", script.parent / "node.toml"], input=script.read_bytes(), capture_output=True,
                       check=True)
    said(program, "nested")
    return numbers(noted.read_text("ascii"))


def stacks(library: pathlib.Path, folder: pathlib.Path) -> dict[str, int]:
    """The bounds of the stack, and what calls took."""
    found = {}
    try:
        found = {f"stack bound, {name}, bytes": most for name, most in stack.bounds(library).items()}
    except stack.NoBound as why:
        print(f"stack: {why}", file=sys.stderr)
    return found | {f"stack, {name}, bytes": most for name, most in painted(library, folder).items()}


def sizes(library: pathlib.Path) -> dict[str, int]:
    """The bytes of the library's code, and those with its constants."""
    sections = [line.split() for line in said("size", "-A", library).splitlines()]
    code = sum(int(it[1]) for it in sections if len(it) == 3 and it[0].startswith(".text"))
    both = sum(int(line.split()[0]) for line in said("size", library).splitlines()[1:])
    return {"code, bytes": code, "code and constants, bytes": both}


def measured(library: pathlib.Path) -> dict[str, int]:
    """All figures, by their names."""
    with tempfile.TemporaryDirectory() as name:
        folder = pathlib.Path(name)
        program = compiled(folder / "library", library, "-O2", TOP / "bench/library.c", *POOL)
        times = numbers(said(program, "ns")) | numbers(said(program, "records"))
        found = {f"{kind}, ns": number for kind, number in times.items()}
        for kind in ("put", "pd"):
            whole, price = instructions(program, kind, folder)
            found |= {f"{kind}, instructions": whole, f"{kind}, instructions of the call from C": price}
        found["memory, bytes"] = numbers(said(program, "memory"))["most"]
        return found | sizes(library) | stacks(library, folder)


def main() -> None:
    parser = results.arguments(__doc__)
    default = TOP / record.place_of("proved", record.LIBRARY)
    parser.add_argument("library", nargs="?", type=pathlib.Path, default=default)
    given = parser.parse_args()
    rows = measured(given.library)
    for name, number in rows.items():
        print(f"{name:50}{number:10,}")
    if given.save:
        known = record.current(TOP, record.LIBRARY)
        is_proved = known is not None and known[1].kind == "proved" and known[0] == given.library.resolve()
        results.save("library", {"rows": rows}, proved=is_proved)


if __name__ == "__main__":
    main()
