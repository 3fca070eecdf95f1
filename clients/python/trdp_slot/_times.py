"""Moments of `time.monotonic`, and how long to wait."""
from __future__ import annotations

import math
import time

from ._shown import shown

WAIT_MOST = 3600.0  # seconds of one wait: the system takes none of many days


def end_of(time_us: float | None) -> float | None:
    """The moment of `time.monotonic` in that many microseconds; None where that is for ever."""
    if time_us is None:
        return None
    if not isinstance(time_us, (int, float)) or not time_us >= 0:
        raise ValueError(f"time_us is {shown(time_us)}, and no time of 0 or more")
    return time.monotonic() + min(time_us, 1e18) / 1_000_000


def left(end: float | None) -> float:
    """How many seconds to wait at once for what comes before that moment."""
    return WAIT_MOST if end is None else min(WAIT_MOST, max(0.0, end - time.monotonic()))


class Times:
    """When the client said something, heard something and tried something last, and when its lease has it say a
    remark."""

    def __init__(self, lease_us: int | None) -> None:
        self.lease_us = lease_us
        self.said: float | None = None  # when the latest line was said, if one was
        self.heard = -math.inf  # when something came last
        self.tried = -math.inf  # when `run` looked at the objects last, or tried to make them again

    def beat_due(self) -> float:
        """When a remark is due, so that the lease goes on."""
        if self.lease_us is None or self.said is None:
            return math.inf
        return self.said + self.lease_us / 3_000_000

    def notice_end_of_lease(self) -> None:
        """Has `run` look at the objects at once, if this program was silent for as long as the lease."""
        if self.lease_us is not None and self.said is not None:
            if time.monotonic() >= self.said + self.lease_us / 1_000_000:
                self.heard = self.tried = -math.inf
