#!/usr/bin/env python3
"""Draws datasets and values by chance, and compares what C and Python make of them.

    clients/c/values.py [--count N] PROGRAM ..

PROGRAM is test_values.c, compiled, by one or more compilers. N datasets are drawn, 2000 by default, each with a value.
C has to make the same bytes of it as Python, which has it as a list, a dict and a dataclass of trdp-structs, and the
same value of the bytes. Other bytes near them have to be a value in both languages or in none. What is drawn depends on
TRDP_SEED in the environment, which is printed. Prints `values: N passed, M failed`, and ends with status 1 if something
differs.
"""
from __future__ import annotations

import argparse
import itertools
import math
import os
import pathlib
import random
import subprocess
import sys
from collections.abc import Iterator
from typing import Any

sys.dont_write_bytecode = True
HERE = pathlib.Path(__file__).resolve().parent
sys.path.insert(0, str(HERE.parent / "python"))
from drawn import FIRST, Case, draw  # noqa: E402
from forms import faults_of, meant  # noqa: E402
from trdp_slot import Datasets, DoesNotFit, Element  # noqa: E402

NUMBERS = {"BOOL8": 1, "BITSET8": 1, "CHAR8": 2, "UTF16": 3, "INT8": 4, "INT16": 5, "INT32": 6, "INT64": 7, "UINT8": 8,
           "UINT16": 9, "UINT32": 10, "UINT64": 11, "REAL32": 12, "REAL64": 13, "TIMEDATE32": 14, "TIMEDATE48": 15,
           "TIMEDATE64": 16, "ANTIVALENT8": 1}
# How many digits tell two numbers apart.
DIGITS = {"REAL32": 9, "REAL64": 17}
# The numbers of the header's errors that are compared.
OK, CUT, NO_FIT = "OK", "CUT", "NO_FIT"
SEED = int(os.environ.get("TRDP_SEED") or random.randrange(1 << 32))


def words_of(datasets: Datasets, number: int, value: list[Any]) -> Iterator[str]:
    """The numbers of a value, in order, as test_values.c reads and prints them."""
    for element, entry in zip(datasets.elements[number], value):
        for item in [entry] if element.size == 1 else entry:
            if isinstance(element.type, int):
                yield from words_of(datasets, element.type, item)
            elif element.as_ in DIGITS:
                yield real_word(element, item)
            else:
                yield from map(str, item if isinstance(item, tuple) else [item])


def real_word(element: Element, bits: int) -> str:
    """The number of a REAL, or the bits of a NaN."""
    number = meant(element, bits)
    return f"nan{bits}" if math.isnan(number) else f"{number:.{DIGITS[str(element.as_)]}g}"


def has_room(case: Case, number: int, value: Any) -> bool:
    """Whether each counted array of a value has at most as many items as its member has room for."""
    for index, (element, entry) in enumerate(zip(case.datasets.elements[number], value)):
        if element.size == 0 and len(entry) > case.rooms[number, index]:
            return False
        if isinstance(element.type, int):
            if not all(has_room(case, element.type, it) for it in ([entry] if element.size == 1 else entry)):
                return False
    return True


def line_of(case: Case) -> str:
    """The case as test_values.c reads it."""
    words: list[int | str] = [len(case.datasets.elements)]
    for number, elements in case.datasets.elements.items():
        words.append(len(elements))
        for index, element in enumerate(elements):
            kind = element.as_ or element.type
            words += [100 + kind - FIRST if isinstance(kind, int) else NUMBERS[kind], element.size,
                      case.rooms[number, index]]
    words += [case.number - FIRST, *words_of(case.datasets, case.number, case.value), case.data.hex() or "-"]
    words += [len(case.others), *(it.hex() or "-" for it in case.others)]
    return " ".join(map(str, words))


def expected(case: Case, errors: dict[str, int]) -> str:
    """What has to come back."""
    words: list[int | str] = ["pack", errors[OK], case.data.hex() or "-", "unpack", errors[OK],
                              *words_of(case.datasets, case.number, case.value)]
    for other in case.others:
        try:
            value = case.datasets.unpack(case.number, other)
        except DoesNotFit:
            words += ["other", errors[NO_FIT]]
            continue
        if has_room(case, case.number, value):
            words += ["other", errors[OK], errors[OK], other.hex() or "-"]
        else:
            words += ["other", errors[CUT]]
    return " ".join(map(str, words))


def errors_of_header() -> dict[str, int]:
    """The numbers of the errors, by the order in which the header has them."""
    text = (HERE / "trdp_slot.h").read_text().partition("enum trdp_slot_error {")[2].partition("};")[0]
    names = [it.strip(" ,") for it in text.splitlines() if it.strip().startswith("TRDP_SLOT_")]
    return {name: names.index(f"TRDP_SLOT_{name}") for name in (OK, CUT, NO_FIT)}


def faults_in_c(program: str, lines: list[str], wanted: list[str]) -> Iterator[str]:
    """What differs between what a program answers to these lines and what it has to."""
    ran = subprocess.run([program], input="".join(f"{it}\n" for it in lines), capture_output=True, text=True,
                         timeout=600)
    answers = ran.stdout.splitlines()
    for line, answer, want in zip(lines, answers, wanted):
        if answer != want:
            yield f"{line}\n  gives   {answer}\n  and not {want}"
    if len(answers) != len(lines) or ran.returncode:
        yield f"{program}: {len(answers)} of {len(lines)} answers, status {ran.returncode}: {ran.stderr[-2000:]}"


def main() -> int:
    """Draws, compares, and prints the first faults."""
    parser = argparse.ArgumentParser(description="Compares what C and Python make of values that are drawn by chance.")
    parser.add_argument("programs", metavar="PROGRAM", nargs="+", help="test_values.c, compiled")
    parser.add_argument("--count", type=int, default=2000, help="how many values are drawn, 2000 by default")
    asked = parser.parse_args()
    print(f"values: TRDP_SEED={SEED}", flush=True)
    cases = list(itertools.islice(draw(random.Random(SEED)), asked.count))
    errors = errors_of_header()
    faults = [f"{line_of(case)}\n  in Python: {it}" for case in cases for it in faults_of(case)]
    lines, wanted = [line_of(it) for it in cases], [expected(it, errors) for it in cases]
    for program in asked.programs:
        faults += faults_in_c(program, lines, wanted)
    for fault in faults[:3]:
        print(f"values: {fault}")
    compared = asked.count * (1 + len(asked.programs))
    print(f"values: {max(0, compared - len(faults))} passed, {len(faults)} failed")
    return 1 if faults else 0


if __name__ == "__main__":
    sys.exit(main())
