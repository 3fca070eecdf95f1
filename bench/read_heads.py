#!/usr/bin/env python3
"""How fast telegrams are read, beside plain bodies with the same tables.

    bench/read_heads.py [--runs RUNS] [--save]          needs rt and rustc; 12 runs if RUNS is not given
    bench/read_heads.py instructions [--save]           and valgrind

The crate trdp_head is built into a static library, with functions that C calls, and linked with bench/read_heads.rs,
which times its `read_pd` and `read_md` and those of bench/plain_heads.rs in one process. Each answer is folded into a
number by bench/folded.rs, which is built into both. A line has the telegram, its bytes, whether its frame check is
right, nanoseconds of a reading (the best of 400 rounds), and how many times as long the proved body takes. After the
lines of all runs come the medians, with the ratio in each run, from the least to the most. With `instructions` it is
the instructions of a reading instead, counted by valgrind, of the telegrams with a right check.
"""
from __future__ import annotations

import re
import statistics
import subprocess
import sys

import results
from proved_library import TOP, run

TURNS = 1000
LINE = re.compile(r"(\w+ \w+) +(\d+)  (right|wrong) +([\d.]+) +([\d.]+) +[\d.]+ times")
Key = tuple[str, int, str]                        # the telegram, its bytes, and whether its frame check is right
Times = tuple[float, float]                       # nanoseconds of the proved body, and of the plain one

LIBRARY = """\
//! The readers of telegrams for a C caller.
#![tactic(auto)]

mod folded;

use trdp_base::{Topo, Uri};
use trdp_head::{HeadFault, MdHead, MdKind, PdHead, PdKind, read_md, read_pd};

/// What is read of the process data telegram in the bytes, folded into a number.
#[unsafe(no_mangle)]
pub extern "C" fn proved_read_pd(bytes: &[u8]) -> u64 {
    match read_pd(bytes) {
        Ok(view) => folded::pd_number(&view.head, view.payload),
        Err(fault) => folded::fault_number(fault),
    }
}

/// What is read of the message data telegram in the bytes, folded into a number.
#[unsafe(no_mangle)]
pub extern "C" fn proved_read_md(bytes: &[u8]) -> u64 {
    match read_md(bytes) {
        Ok(view) => folded::md_number(&view.head, view.payload),
        Err(fault) => folded::fault_number(fault),
    }
}
"""


def counted(words: list[str]) -> int:
    """The instructions of a program with these words."""
    valgrind = ["valgrind", "--tool=callgrind", "--callgrind-out-file=/dev/null"]
    said = subprocess.run([*valgrind, *words], stderr=subprocess.PIPE, text=True, check=True).stderr
    found = re.search(r"Collected : (\d+)", said)
    if not found:
        sys.exit(f"read_heads.py: valgrind counts nothing: {said}")
    return int(found[1])


def count_instructions(program: str) -> list[dict[str, object]]:
    """Prints the instructions of a reading, of the proved body and of the plain one: the difference of two counts.
    Returns them."""
    rows: list[dict[str, object]] = []
    print("telegram     bytes    proved     plain  proved body")
    for case, (name, size) in enumerate((("process data", 48), ("message data", 120))):
        proved, plain = ((counted([program, body, str(case), str(2 * TURNS)])
                          - counted([program, body, str(case), str(TURNS)])) / TURNS for body in ("proved", "plain"))
        print(f"{name} {size:5}  {proved:8.0f}  {plain:8.0f} {proved / plain:6.2f} times")
        rows.append({"telegram": name, "bytes": size, "proved": round(proved), "plain": round(plain)})
    return rows


def time_runs(program: str, runs: int) -> list[dict[str, object]]:
    """Prints what each run prints, and the medians of all. Returns the medians."""
    found: dict[Key, list[Times]] = {}
    for _ in range(runs):
        said = subprocess.run([program], stdout=subprocess.PIPE, text=True, check=True).stdout
        print(said, end="", flush=True)
        for it in LINE.finditer(said):
            found.setdefault((it[1], int(it[2]), it[3]), []).append((float(it[4]), float(it[5])))
    rows: list[dict[str, object]] = []
    print(f"medians of {runs} runs")
    for (name, size, check), times in found.items():
        proved, plain = (statistics.median(it) for it in zip(*times))
        ratios = [one / other for one, other in times]
        print(f"{name}  {size:5}  {check}  {proved:8.1f}  {plain:8.1f} {proved / plain:6.2f} times, "
              f"{min(ratios):.2f} to {max(ratios):.2f}")
        rows.append({"telegram": name, "bytes": size, "check": check, "proved_ns": proved, "plain_ns": plain,
                     "least_ratio": min(ratios), "most_ratio": max(ratios)})
    return rows


def main() -> None:
    parser = results.arguments(__doc__)
    parser.add_argument("what", nargs="?", choices=("times", "instructions"), default="times")
    parser.add_argument("--runs", type=int, default=12)
    given = parser.parse_args()
    rows: list[dict[str, object]] = []

    def use(program: str) -> None:
        rows.extend(count_instructions(program) if given.what == "instructions" else time_runs(program, given.runs))

    with open(f"{TOP}/bench/folded.rs") as folded:
        sources = {"lib.rt": LIBRARY, "folded.rt": folded.read()}
    run("read_heads", ["trdp_base", "trdp_head"], sources, use)
    if given.save:
        # The crate is proved before it is built.
        name, figures = "read_heads", {"rows": rows, "runs": given.runs}
        if given.what == "instructions":
            name, figures = "read_heads_instructions", {"rows": rows}
        results.save(name, figures, proved=True)


if __name__ == "__main__":
    main()
