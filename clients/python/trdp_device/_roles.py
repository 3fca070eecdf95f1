"""Redundancy groups: the number that each has here."""
from __future__ import annotations

from collections.abc import Iterable

from ._device import ProcessParameter
from ._report import Report

GROUP_MOST = 255


class Roles:
    """The redundancy groups of an interface. A number above 255 is the lowest one that no telegram has."""

    def __init__(self, numbers: Iterable[int], report: Report) -> None:
        """`numbers` are those of all telegrams that the interface sends."""
        taken = {it for it in numbers if it <= GROUP_MOST}
        self._free = [it for it in range(GROUP_MOST, 0, -1) if it not in taken]
        self._groups: dict[int, int] = {}
        self._report = report

    @property
    def is_used(self) -> bool:
        """Whether anything redundant is sent."""
        return bool(self._groups)

    def group_of(self, process: ProcessParameter | None) -> int | None:
        """The group of a publisher: 0 for none, and None if all 255 are taken."""
        if process is None or process.redundant == 0:
            return 0
        group = self._group(process.line, process.redundant)
        if group is None:
            self._report.loss(process.line, f"redundant {process.redundant}: all {GROUP_MOST} redundancy groups are "
                                            "taken, so each call of it is a remark")
        return group

    def _group(self, line: int, redundant: int) -> int | None:
        """The group of a number, whose first telegram is on that line."""
        if redundant not in self._groups:
            if redundant > GROUP_MOST:
                if not self._free:
                    return None
                self._groups[redundant] = self._free.pop()
                self._report.note(line, f"redundant {redundant} is redundancy group {self._groups[redundant]}")
            else:
                self._groups[redundant] = redundant
            self._report.note(line, f"redundancy group {self._groups[redundant]} sends nothing before the operator's "
                                    f"line: role {self._groups[redundant]} leader")
        return self._groups[redundant]
