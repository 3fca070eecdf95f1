"""What all objects go by: what they may see, counts that match, and filters."""
from __future__ import annotations

from collections import Counter
from typing import Protocol

from .settings import Settings
from .telegrams import Data, Message
from .texts import Pair

# The latest moment, in microseconds.
LAST_MOMENT = 2**62


class Filter(Protocol):
    """What hears telegrams by their source, destination and counts."""

    kind: str
    source: Pair
    dest: int
    topo: Pair


class Setting:
    """What the objects of one slot may see: the time, topology counters, the groups that are led, the configuration.

    Each slot has one of its own. `note` counts what happens without a line, so that a run can say whether it came to
    it.
    """

    def __init__(self, settings: Settings, seen: Counter[str] | None = None) -> None:
        self.now, self.topo = 0, (0, 0)
        self.led: set[int] = set()
        self.pd_port, self.datasets = settings.pd_port, settings.datasets
        self.seen: Counter[str] = Counter() if seen is None else seen

    def note(self, what: str) -> None:
        self.seen[what] += 1


def count_matches(a: int, b: int) -> bool:
    return a == 0 or b == 0 or a == b


def counts_match(one: Pair, other: Pair) -> bool:
    """Whether two pairs of topology counters match."""
    return count_matches(one[0], other[0]) and count_matches(one[1], other[1])


def in_range(bounds: Pair, address: int) -> bool:
    low, high = bounds
    return low == high == 0 or low <= address <= high


def passes(term: Filter, setting: Setting, telegram: Data | Message, source: Pair, destination: Pair) -> bool:
    """Whether a telegram of the right comId passes a filter: its source, destination and counts."""
    if not in_range(term.source, source[0]):
        setting.note(f"{term.kind}: other source")
    elif term.dest not in (0, destination[0]):
        setting.note(f"{term.kind}: other destination")
    elif not counts_match(term.topo, telegram.topo):
        setting.note(f"{term.kind}: other counts")
    else:
        return True
    return False
