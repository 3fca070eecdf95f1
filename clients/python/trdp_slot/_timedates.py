"""The pairs that a TIMEDATE48 and a TIMEDATE64 are, and the moments of all three."""
from __future__ import annotations

import datetime
from typing import NamedTuple

from ._shown import shown
from ._types import TICKS


class TimeDate48(NamedTuple):
    """A TIMEDATE48: seconds since 1970, and ticks of 1/65536 s. It is shown as the pair that it is."""

    seconds: int
    ticks: int

    def __repr__(self) -> str:
        return tuple.__repr__(self)


class TimeDate64(NamedTuple):
    """A TIMEDATE64: seconds since 1970, and microseconds. It is shown as the pair that it is."""

    seconds: int
    microseconds: int

    def __repr__(self) -> str:
        return tuple.__repr__(self)


def moment(value: int | tuple[int, int]) -> datetime.datetime:
    """The moment in UTC that a TIMEDATE is. A pair that isn't a TimeDate48 is one of seconds and microseconds."""
    try:
        if isinstance(value, int):
            return datetime.datetime.fromtimestamp(value, datetime.UTC)
        seconds, part = value
        microseconds = part * 1_000_000 / TICKS if isinstance(value, TimeDate48) else part
        return datetime.datetime.fromtimestamp(seconds, datetime.UTC) + datetime.timedelta(microseconds=microseconds)
    except (TypeError, ValueError, OverflowError, OSError):
        raise ValueError(f"{shown(value)} is no time") from None
