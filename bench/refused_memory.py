#!/usr/bin/env python3
"""Refuses each request for memory of a test, one in each run.

    bench/refused_memory.py [CRATE [TEST]]      default: all tests that pass whichever request is refused

With CRATE it is those of CRATE alone, or TEST alone. The test must pass each time. It is the one in
crates/CRATE/out/CRATE_tests, which `rt test` in crates/CRATE proves and builds. A line has the test, how many requests
it has, and how many runs failed. The exit status is 0 where the tests passed in every run, and else 1.
`rt try --test --fail-alloc N` is one such run without proof, which takes a minute.
"""
from __future__ import annotations

import os
import sys

from refused import BENCH, Library, built

TESTS = [
    ("trdp_parts_tests", "objects::caller_keeps_its_payload"),
    ("trdp_parts_tests", "table::a_slot_is_added_again"),
    ("trdp_node_tests", "refused::an_event_is_given_again"),
    ("trdp_node_tests", "refused::a_configuration_is_read_again"),
    ("trdp_node_tests", "refused::values_are_spelled_again"),
    ("trdp_node_tests", "refused::a_line_is_read_again"),
    ("trdp_node_tests", "turns::refused_memory_is_counted"),
]


def failures(library: Library, crate: str, test: str) -> tuple[int, int]:
    """How many requests the test has, and how many runs failed of those in which one of them is refused."""
    program = os.path.join(os.path.dirname(BENCH), "crates", crate, "out", f"{crate}_tests")
    if not os.path.exists(program):
        sys.exit(f"refused_memory.py: {program} is missing: rt test in crates/{crate} builds it")
    requests, whole = library.count([program, test], "memory")
    if whole.returncode != 0 or "test result: ok" not in whole.stdout or requests == 0:
        sys.exit(f"refused_memory.py: {test} doesn't pass with memory\n{whole.stdout}{whole.stderr}")
    failed = 0
    for number in range(1, requests + 1):
        ran = library.run([program, test], refused=("memory", number))
        if ran.returncode != 0 or "test result: ok" not in ran.stdout:
            failed += 1
            print(f"request {number}: status {ran.returncode}\n{ran.stdout}{ran.stderr}", end="")
    return requests, failed


def main(words: list[str]) -> int:
    tests: list[tuple[str, ...]] = [it for it in TESTS if words == list(it)[:len(words)]] or [tuple(words)]
    if len(tests[0]) != 2:
        sys.exit(__doc__)
    total = 0
    with built() as library:
        for crate, test in tests:
            requests, failed = failures(library, crate, test)
            print(f"{crate} {test}: {requests} requests for memory, each refused in turn: {failed} runs failed")
            total += failed
    return 1 if total else 0


if __name__ == "__main__":
    sys.exit(main(sys.argv[1:]))
