#!/usr/bin/env python3
"""How many bytes of stack a call of each function that the node's library exports takes at most, by its machine code.

    bench/stack.py [LIBRARY]      default: the library that package/record.py names

A function takes what it pushes and subtracts from the stack pointer, and at a call the return address and what the
called function takes. LEVELS has how deep a function may call itself. Functions of C, such as memcpy, count with their
return address only. There is no bound of `trdp_node_raw_open`, whose depth is that of the configuration's tables. The
status is 1, with the reason, if another function has none: it calls an address, or itself, or changes the stack pointer
in another way.
"""
from __future__ import annotations

import dataclasses
import functools
import pathlib
import re
import subprocess
import sys
from collections.abc import Iterator
from typing import NamedTuple

sys.dont_write_bytecode = True
TOP = pathlib.Path(__file__).resolve().parent.parent
sys.path.insert(0, str(TOP / "package"))
import record  # noqa: E402

# What a return address takes, and a register that is pushed.
WORD = 8
# How often each of these is on the stack at most: datasets nest 5 deep; a heap of 16 slots with 6 times 256 objects has
# 15 levels, and one call looks below them; a number of 64 bits has 20 digits.
LEVELS = {"trdp_marshal::payload::skip_elements": 5, "trdp_timers::heap::Heap::due_below": 16,
          "trdp_base::number::put_number": 20}
UNBOUNDED = "trdp_node_raw_open"
SECTION = re.compile(r"Disassembly of section (.+):")
FUNCTION = re.compile(r"([0-9a-f]+) <(.+)>:")
CODE = re.compile(r" +([0-9a-f]+):\t(?:(?:data16|cs|repz?|lock|notrack|bnd) )*(\S+) *([^\t]*)(?:\t(.*))?")
MOVED = re.compile(r"[0-9a-f]+: R_X86_64_\w+\t(.+?)([-+]0x[0-9a-f]+)?")
SHIFT = re.compile(r"\$(-?0x[0-9a-f]+),%rsp")
BACK = re.compile(r"-(0x[0-9a-f]+)\(%rbp\),%rsp")
# What is between functions and blocks, so that they begin at certain addresses.
PADDING = ("nop", "nopw", "nopl", "int3", "xchg")
# Where the linker puts the address of a function.
KEPT = re.compile(r"^\S+ +R_X86_64_64 +(.+?)(?:[-+]0x[0-9a-f]+)?$", re.MULTILINE)
# A place below the stack pointer, or below the frame's pointer, which a function that calls no other one may use.
BELOW = re.compile(r"-(0x[0-9a-f]+)\(%(rsp|rbp)")


class NoBound(Exception):
    """Why there is no bound."""


class Depth(NamedTuple):
    """How deep the stack is, in bytes, and where the frame's pointer points to."""

    stack: int
    frame: int


@dataclasses.dataclass(frozen=True)
class Step:
    """An instruction, with the symbol that the linker puts there, if there is one, and the distance from it."""

    at: int
    word: str
    operands: str
    symbol: str | None
    beyond: int

    def is_jump(self) -> bool:
        return self.word.startswith("j")

    def is_by_table(self) -> bool:
        """Whether it is a jump to an address that a table has."""
        return self.is_jump() and self.operands.startswith("*")

    def target(self) -> int:
        """Where a jump or a call without a symbol leads to."""
        return int(self.operands.split()[0], 16)

    def uses(self, depth: Depth) -> int:
        """How deep the stack is that it uses, if it begins at that depth."""
        places = [int(it[1], 16) + (depth.stack if it[2] == "rsp" else depth.frame)
                  for it in BELOW.finditer(self.operands)]
        return max([depth.stack, *places])

    def after(self, depth: Depth) -> Depth:
        """The depth after it. Raises NoBound if that isn't known."""
        match self.word, self.operands:
            case "push", _:
                return depth._replace(stack=depth.stack + WORD)
            case "pop", _:
                return depth._replace(stack=depth.stack - WORD)
            case "sub" | "add", _ if match := SHIFT.fullmatch(self.operands):
                return depth._replace(stack=depth.stack + int(match[1], 16) * (1 if self.word == "sub" else -1))
            case "and", _ if match := SHIFT.fullmatch(self.operands):
                return depth._replace(stack=depth.stack + -int(match[1], 16) % 2 ** 64 - 1)
            case "mov", "%rsp,%rbp":
                return depth._replace(frame=depth.stack)
            case "mov", "%rbp,%rsp":
                return depth._replace(stack=depth.frame)
            case "leave", _:
                return depth._replace(stack=depth.frame - WORD)
            case "lea", _ if match := BACK.fullmatch(self.operands):
                return depth._replace(stack=depth.frame + int(match[1], 16))
            case "cmp" | "test", _:
                return depth
        if self.operands.endswith("%rsp") or self.word in ("enter", "pushf", "popf"):
            raise NoBound(f"{self.word} {self.operands}")
        return depth


@dataclasses.dataclass(frozen=True)
class Function:
    """A function, with its steps in their order."""

    name: str
    section: str
    at: int
    steps: list[Step]

    def walked(self) -> Iterator[tuple[Step, Depth]]:
        """Each step that can be reached, with the depth before it."""
        places = {step.at: i for i, step in enumerate(self.steps)}
        depths: dict[int, Depth] = {}
        waiting, tables = [(0, Depth(0, -sys.maxsize))], set()
        while waiting:
            i, depth = waiting.pop()
            if depths.setdefault(i, depth).stack != depth.stack:
                raise NoBound(f"two depths at {self.steps[i].at:x}")
            step = self.steps[i]
            if step.is_by_table():
                tables.add(depth)
            waiting += [(it, step.after(depth)) for it in self.ways(i, places) if it not in depths
                        or depths[it].stack != step.after(depth).stack]
            if not waiting and tables:
                # A jump by a table stays in its function: what nothing else leads to is reached by one.
                left = [i for i, it in enumerate(self.steps) if i not in depths and it.word not in PADDING]
                waiting += [(i, depth) for i in left[:1] for depth in tables]
        return ((self.steps[i], depth) for i, depth in depths.items())

    def ways(self, i: int, places: dict[int, int]) -> list[int]:
        """Which steps may come after one, if steps begin at these addresses; without those to which a table leads."""
        step = self.steps[i]
        found = [i + 1] if step.word not in ("jmp", "ret", "ud2") and i + 1 < len(self.steps) else []
        if step.is_jump() and not step.is_by_table() and step.symbol is None:
            found.append(places[step.target()])
        return found


def shown(library: pathlib.Path, *words: str) -> str:
    """What objdump shows of a library."""
    return subprocess.run(["objdump", "-w", *words, library], check=True, capture_output=True, text=True).stdout


def functions_of(library: pathlib.Path) -> Iterator[Function]:
    """All functions of a library."""
    section, found = "", None
    for line in [*shown(library, "-d", "-r", "--no-show-raw-insn").splitlines(), ""]:
        if match := SECTION.fullmatch(line):
            section = match[1]
        elif match := FUNCTION.fullmatch(line):
            found = Function(match[2], section, int(match[1], 16), [])
            yield found
        elif found and (match := CODE.fullmatch(line)):
            moved = MOVED.fullmatch(match[4] or "")
            symbol, beyond = (moved[1], int(moved[2] or "0", 16)) if moved else (None, 0)
            found.steps.append(Step(int(match[1], 16), match[2], match[3].strip(), symbol, beyond))


class Code:
    """The functions of a library."""

    def __init__(self, library: pathlib.Path) -> None:
        functions = list(functions_of(library))
        self.named = {it.name: it for it in functions}
        self.placed = {(it.section, it.at): it for it in functions}
        for part in shown(library, "-r").split("RELOCATION RECORDS FOR ")[1:]:
            section = part[1:part.index("]")]
            kept = [it for it in KEPT.findall(part) if it.startswith(".text") or it in self.named]
            # Tables for debuggers and unwinders have the addresses of all functions, and the code reads none of them.
            if kept and not section.startswith((".eh_frame", ".debug")):
                raise NoBound(f"{section} keeps the address of a function: {kept[0]}")

    def called(self, step: Step, caller: Function) -> Function | None:
        """The function that a call or a jump leads to; None if it is of C."""
        if step.symbol is None and step.operands[0] != "*":
            return self.placed[caller.section, step.target()]
        if step.symbol is None or step.symbol == ".text" and (step.symbol, step.beyond + 4) not in self.placed:
            raise NoBound(f"{caller.name} calls {step.operands}")
        return self.named.get(step.symbol) or self.placed.get((step.symbol, step.beyond + 4))

    @functools.cache
    def bound(self, name: str, above: tuple[str, ...] = ()) -> int:
        """How much a function takes at most, without its own return address, if these have called it."""
        function, most, again = self.named[name], 0, 0
        try:
            steps = list(function.walked())
        except NoBound as why:
            raise NoBound(f"{name}: {why}") from None
        for step, before in steps:
            most, depth = max(most, step.uses(before)), before.stack
            if step.word != "call" and not (step.is_jump() and step.symbol):
                continue
            depth += WORD if step.word == "call" else 0
            called = self.called(step, function)
            if called and called.name == name and name in LEVELS:
                again = max(again, depth)
            elif called and called.name in (*above, name):
                raise NoBound(f"{name} calls {called.name}, which has called it")
            else:
                most = max(most, depth + (self.bound(called.name, (*above, name)) if called else 0))
        return most + again * (LEVELS.get(name, 1) - 1)


def bounds(library: pathlib.Path) -> dict[str, int]:
    """What a call of each export takes at most, with its return address."""
    code = Code(library)
    names = re.findall(r"^[0-9a-f]+ g .*? (trdp_node_\w+)$", shown(library, "-t"), re.MULTILINE)
    return {name: WORD + code.bound(name) for name in sorted(names) if name != UNBOUNDED}


def main(words: list[str]) -> int:
    found = record.current(TOP, record.LIBRARY)
    if len(words) > 1 or not (words or found):
        print("usage: bench/stack.py [LIBRARY]", file=sys.stderr)
        return 2
    try:
        for name, most in bounds(pathlib.Path(words[0]) if words or not found else found[0]).items():
            print(f"{name:30}{most:8,}")
    except (NoBound, OSError, subprocess.CalledProcessError) as why:
        print(f"stack: {why}", file=sys.stderr)
        return 1
    return 0


if __name__ == "__main__":
    sys.exit(main(sys.argv[1:]))
