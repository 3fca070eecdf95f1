"""The times between the telegrams of a row, and how many bytes come in a second."""
from __future__ import annotations

import math
import statistics
from array import array

WINDOW = 256
"""How many of the latest times are kept."""
TIME_MOST = 0xFFFFFFFF
"""The longest time that is kept, in microseconds: more than an hour."""


class Cycles:
    """The latest times between telegrams, each with the bytes of the later one, and the worst time of all."""

    __slots__ = ("latest_us", "worst_us", "count", "_times", "_sizes", "_median", "_median_count")

    def __init__(self) -> None:
        self.latest_us: int | None = None
        self.worst_us: int | None = None
        self.count = 0  # how many times there were
        self._times = array("I", bytes(4 * WINDOW))
        self._sizes = array("I", bytes(4 * WINDOW))
        self._median = 0  # of when there were so many times
        self._median_count = 0

    def take(self, time_us: int, size: int) -> None:
        """Takes a telegram of that size which came at that time."""
        if self.latest_us is None:
            self.latest_us = time_us
            return
        # Packets of a capture aren't always in order.
        time = min(TIME_MOST, max(0, time_us - self.latest_us))
        self.latest_us = max(time_us, self.latest_us)
        self.worst_us = max(time, self.worst_us or 0)
        self._times[self.count % WINDOW] = time
        self._sizes[self.count % WINDOW] = size
        self.count += 1

    def times(self) -> array[int]:
        """The kept times, in no order."""
        return self._times[:self.count]

    def median_us(self) -> int | None:
        """The median of the kept times; None if there is none."""
        if not self.count:
            return None
        if self._median_count != self.count:
            self._median, self._median_count = round(statistics.median(self.times())), self.count
        return self._median

    def jitter_us(self) -> int | None:
        """The standard deviation of the kept times; None if there is none."""
        if not self.count:
            return None
        times = self.times()
        mean = sum(times) / len(times)
        return round(math.sqrt(sum((it - mean) ** 2 for it in times) / len(times)))

    def bytes_per_second(self) -> int:
        """How many bytes came in a second, on the average of the kept times."""
        time = sum(self.times())
        return sum(self._sizes[:self.count]) * 1_000_000 // time if time else 0
