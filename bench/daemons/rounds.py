"""Which rounds of a measurement count: the function `counts` has the rule."""
from __future__ import annotations

import os
import pathlib
import time
from collections.abc import Callable, Mapping
from dataclasses import dataclass, field
from typing import Generic, TypeVar

PROC = pathlib.Path("/proc")
TICKS = os.sysconf("SC_CLK_TCK")                  # in a second
STOLEN = 8                                        # Linux: the place of the stolen time in a line of /proc/stat
PARENT, OWN, ENDED = 1, 11, 13                    # Linux: places in /proc/N/stat after the name
STOLEN_MOST, OTHERS_MOST = 0.01, 0.1              # shares of one processor
TIMES_MOST = 3                                    # at most this many times as many rounds as were asked for
Found = TypeVar("Found")


@dataclass(frozen=True)
class Process:
    """A process: its parent, the processor time that it has used itself, and the time that those of its children used
    that have ended; in ticks."""

    parent: int = 0
    own: int = 0
    ended: int = 0


@dataclass(frozen=True)
class Look:
    """The machine at one time: that time in seconds, the processor time that the host has taken away so far, in ticks,
    and each process by its number."""

    time: float
    stolen: int
    processes: Mapping[int, Process]


@dataclass(frozen=True)
class Disturbance:
    """What disturbed a round, as shares of one processor: what the host took away, and what processes used that are not
    measured."""

    stolen: float
    others: float


@dataclass
class Rounds(Generic[Found]):
    """The rounds of a measurement: how many were asked for and made, what was found in the rounds that count, and what
    disturbed each round."""

    asked: int
    made: int = 0
    found: list[Found] = field(default_factory=list)
    disturbances: list[Disturbance] = field(default_factory=list)

    def figures(self) -> dict[str, int]:
        """How many there are, as a result has it."""
        return {"asked": self.asked, "made": self.made, "counted": len(self.found)}

    def words(self) -> str:
        """How many there are, as it is printed. If some do not count, also what disturbed the worst of them."""
        counted = f"{len(self.found)} of {self.made} rounds count"
        if len(self.found) == self.made:
            return counted
        stolen = max(it.stolen for it in self.disturbances)
        others = max(it.others for it in self.disturbances)
        asked = f", {self.asked} were asked for" if len(self.found) < self.asked else ""
        return f"{counted}{asked}: the host took up to {100 * stolen:.1f} %, other processes up to {100 * others:.0f} %"


def counts(it: Disturbance) -> bool:
    """Whether a round counts.

    It counts if during it the host took away at most 1 % of one processor, and all processes other than those measured
    used at most 10 % of one. The rule looks only at the machine, never at what was measured. Rounds go on until as many
    count as were asked for, and at most three times as many are made."""
    return it.stolen <= STOLEN_MOST and it.others <= OTHERS_MOST


def process_of(text: str) -> Process:
    """A process, as the system describes it in /proc/N/stat. Its name may have spaces and brackets."""
    words = text.rpartition(")")[2].split()
    own, ended = (sum(map(int, words[at:at + 2])) for at in (OWN, ENDED))
    return Process(int(words[PARENT]), own, ended)


def processes_in(proc: pathlib.Path) -> dict[int, Process]:
    """The processes that there are. A process that ends meanwhile is left out."""
    found = {}
    for name in os.listdir(proc):
        if name.isdigit():
            try:
                found[int(name)] = process_of((proc / name / "stat").read_text("utf-8", "replace"))
            except OSError:
                pass
    return found


def look_in(proc: pathlib.Path, now: float) -> Look:
    """The machine, as the system describes it in this folder. A process that the folder does not show, as a process of
    another container, is not seen."""
    words = (proc / "stat").read_text("ascii").split(maxsplit=STOLEN + 1)
    return Look(now, int(words[STOLEN]), processes_in(proc))


def not_measured(processes: Mapping[int, Process], script: int) -> dict[int, Process]:
    """The processes that are not measured: all except the script and its descendants."""
    measured, size = {script}, 0
    while len(measured) > size:
        size = len(measured)
        measured |= {number for number, it in processes.items() if it.parent in measured}
    return {number: it for number, it in processes.items() if number not in measured}


def used_by_others(before: Look, after: Look, script: int) -> int:
    """The processor time, in ticks, that processes used between two looks if they are not measured.

    When a process ends, the system adds its time to its parent, and the part from before the first look is taken off
    here. If no process waits for its end, its time since the first look is not seen."""
    was, now = (not_measured(it.processes, script) for it in (before, after))
    own = sum(max(0, it.own - was.get(number, Process()).own) for number, it in now.items())
    ended = sum(max(0, it.ended - was.get(number, Process()).ended) for number, it in now.items())
    earlier = sum(it.own + it.ended for number, it in was.items() if number not in now)
    return own + max(0, ended - earlier)


def disturbance(before: Look, after: Look, script: int) -> Disturbance:
    """What disturbed the round between two looks."""
    ticks = (after.time - before.time) * TICKS
    return Disturbance((after.stolen - before.stolen) / ticks, used_by_others(before, after, script) / ticks)


def look_here() -> Look:
    """This machine, now."""
    return look_in(PROC, time.monotonic())


def measured_rounds(asked: int, measured: Callable[[int], Found], look: Callable[[], Look] = look_here
                    ) -> Rounds[Found]:
    """Makes rounds until as many count as were asked for, as `counts` says. Each is called with its number, and returns
    what it found."""
    rounds: Rounds[Found] = Rounds(asked)
    while len(rounds.found) < asked and rounds.made < TIMES_MOST * asked:
        before = look()
        found = measured(rounds.made)
        rounds.disturbances.append(disturbance(before, look(), os.getpid()))
        rounds.made += 1
        if counts(rounds.disturbances[-1]):
            rounds.found.append(found)
    return rounds
