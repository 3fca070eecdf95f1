"""What the sequence counters of a row's telegrams say: which are missing, came again, or begin anew."""
from __future__ import annotations

from collections.abc import Iterable
from dataclasses import dataclass
from enum import Enum, auto

COUNTERS = 1 << 32
STALE = 16
"""A counter that is less than so much behind the latest one is that of a telegram that came again, or late."""


class Step(Enum):
    """What a counter is after the one before it."""

    NEXT = auto()
    GAP = auto()
    REPEAT = auto()
    RESTART = auto()


def step(latest: int, counter: int) -> Step:
    """What a counter is after the latest one."""
    ahead = (counter - latest) % COUNTERS
    if ahead == 1:
        return Step.NEXT
    if ahead == 0:
        return Step.REPEAT
    if ahead < STALE:
        # Also if the counter is 0: it goes on there after the highest one.
        return Step.GAP
    if counter == 0:
        return Step.RESTART
    if COUNTERS - ahead < STALE:
        return Step.REPEAT
    return Step.GAP if ahead < COUNTERS // 2 else Step.RESTART


@dataclass(slots=True)
class Counting:
    """How often counters weren't the next one, and how many telegrams are missing."""

    latest: int | None = None
    gaps: int = 0
    missing: int = 0
    repeats: int = 0
    restarts: int = 0

    def take(self, counter: int, others: Iterable[int] = ()) -> Step:
        """Takes the counter of a telegram. `others` are those of telegrams that the same sender sent elsewhere, and
        that are missing nowhere."""
        found = Step.NEXT if self.latest is None else step(self.latest, counter)
        if found is Step.REPEAT:
            self.repeats += 1
            return found
        if found is Step.RESTART:
            self.restarts += 1
        elif found is Step.GAP:
            self.note_gap(counter, others)
        self.latest = counter
        return found

    def note_gap(self, counter: int, others: Iterable[int]) -> None:
        """Counts a gap before a counter, if telegrams are missing there."""
        assert self.latest is not None
        behind = (counter - self.latest) % COUNTERS
        elsewhere = sum(0 < (it - self.latest) % COUNTERS < behind for it in set(others))
        missing = behind - 1 - elsewhere
        if missing:
            self.gaps += 1
            self.missing += missing
