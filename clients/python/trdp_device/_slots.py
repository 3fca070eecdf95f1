"""The slots of a node, with what each may have."""
from __future__ import annotations

from collections.abc import Sequence
from dataclasses import dataclass, field

from ._calls import Call, Kind
from ._report import Report

QUOTA_MOST = 256
QUOTAS = ("publishers", "subscriptions", "requesters", "listeners", "callers", "repliers")
"""The keys of a slot's quotas, in the order of a node's configuration."""


@dataclass
class Slot:
    """A slot: its name, the comIds that it has, None for all, its control port, and its calls."""

    name: str
    com_ids: frozenset[int] | None
    port: int
    calls: list[Call] = field(default_factory=list)
    quotas: dict[str, int] = field(default_factory=lambda: dict.fromkeys(QUOTAS, 0))

    def has(self, com_id: int) -> bool:
        """Whether the slot has the telegrams of a comId."""
        return self.com_ids is None or com_id in self.com_ids

    def room(self, kind: Kind) -> int:
        """How many more objects of a kind the slot may have."""
        return QUOTA_MOST - self.quotas[kind.value]

    def add(self, kind: Kind, calls: Sequence[Call], count: int, line: int, report: Report) -> None:
        """Adds the calls of a telegram on a line, as many as there is room for. `count` is how many it has, of which
        these may be the first ones."""
        taken = calls[:self.room(kind)]
        if len(taken) < count:
            report.loss(line, f"slot {self.name} has at most {QUOTA_MOST} {kind.value}: {count - len(taken)} of "
                              f"{count} are left out")
        self.calls += taken
        self.quotas[kind.value] += len(taken)
        repliers = self.quotas["repliers"] + sum(it.senders for it in taken)
        if repliers > QUOTA_MOST:
            report.loss(line, f"slot {self.name} has at most {QUOTA_MOST} repliers, and not {repliers}")
        self.quotas["repliers"] = min(repliers, QUOTA_MOST)
