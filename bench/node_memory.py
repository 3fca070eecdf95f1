#!/usr/bin/env python3
"""How much memory `trdpd run` holds as it reads its first line, for nodes with few objects and with many.

    bench/node_memory.py [PROGRAM] [--save]     default: crates/trdpd/out/trdpd (./run prove builds it)

A node takes memory for as many objects as its quotas allow, and none of them is open here. The program's buffers for
lines and output are included, which take 329 KiB. It is the memory that the program asked for; the system gives pages
of it only as they are used. Needs gcc, and a program that `./run prove` built: one of `./run build` has an allocator of
its own.
"""
from __future__ import annotations

import contextlib
import os
import pathlib
import re
import subprocess
import sys
import tempfile
from collections.abc import Iterator, Mapping

import results

KINDS = ("publishers", "subscriptions", "requesters", "listeners", "callers", "repliers")
FEW = dict(zip(KINDS, (2, 2, 1, 1, 1, 1)))
MOST = dict.fromkeys(KINDS, 256)
NODES = ((1, FEW), (16, MOST))
"""The slots of each node, and the quotas of each slot."""


def config(slots: int, quotas: Mapping[str, int]) -> str:
    """The configuration of a node with these slots."""
    slot = "[[slot]]\n" + "".join(f"{kind} = {quota}\n" for kind, quota in quotas.items())
    return '[node]\naddress = "10.0.0.1"\n' + slot * slots


@contextlib.contextmanager
def built() -> Iterator[pathlib.Path]:
    """The library that tells what a program holds, and a folder for a configuration beside it."""
    with tempfile.TemporaryDirectory() as folder:
        library = pathlib.Path(folder) / "held_bytes.so"
        source = results.TOP / "bench/held_bytes.c"
        subprocess.run(["gcc", "-Wall", "-Wextra", "-O2", "-shared", "-fPIC", "-o", library, source, "-ldl"],
                       check=True)
        yield library


def held(program: pathlib.Path, library: pathlib.Path, text: str) -> int:
    """How many bytes the program holds as it reads its first line."""
    path = library.with_name("node.toml")
    path.write_text(text, "utf-8")
    ran = subprocess.run([program, "run", path], env=os.environ | {"LD_PRELOAD": str(library)},
                         stdin=subprocess.DEVNULL, capture_output=True, text=True)
    told = re.search(r"(?m)^held (\d+)$", ran.stderr)
    if ran.returncode != 0 or told is None:
        sys.exit(f"node_memory.py: {program} ended with {ran.returncode}\n{ran.stdout}{ran.stderr}")
    if told[1] == "0":
        sys.exit(f"node_memory.py: {program} doesn't use the C library's allocator: ./run prove builds one that does")
    return int(told[1])


def main() -> None:
    parser = results.arguments(__doc__)
    parser.add_argument("program", nargs="?", type=pathlib.Path, default=results.PROGRAM)
    given = parser.parse_args()
    rows = []
    print(f"{'slots':>5}{'objects':>9}{'KiB':>9}")
    with built() as library:
        for slots, quotas in NODES:
            row = {"slots": slots, "objects": slots * sum(quotas.values()),
                   "bytes": held(given.program, library, config(slots, quotas))}
            rows.append(row)
            print(f"{row['slots']:5}{row['objects']:9,}{row['bytes'] / 1024:9,.0f}")
    if given.save:
        results.save("node_memory", {"rows": rows}, proved=results.is_proved(given.program))


if __name__ == "__main__":
    main()
