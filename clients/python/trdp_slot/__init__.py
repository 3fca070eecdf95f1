"""A client of trdpd: the calls of one slot's application, at a daemon's control port: a UDP port or a control socket.

    from trdp_slot import Slot

    with Slot("node.toml", 0) as doors:
        status = doors.publish(2101, "10.0.0.2:17224", dataset=5002, cycle_us=100_000)
        doors.put(status, [4, [0, 0, 0, 0], 0])

This folder needs Linux and the standard library of Python 3.11 alone, and can be copied. docs/PYTHON.md says how
it is used, and docs/SCRIPT.md what each call does and when it is refused.

All times are whole numbers of microseconds, and named so: `cycle_us`. Addresses are texts such as "10.0.0.2", places
texts such as "10.0.0.2:17224", URIs texts of at most 32 bytes, and sessions are `uuid.UUID`.
"""
from __future__ import annotations

from ._async_slot import AsyncSlot
from ._datasets import Datasets
from ._faults import (AlreadyClosed, Busy, ConfigFault, DoesNotFit, NoAnswer, Nobody, OperatorsPort, OtherSlot, Refused,
                      SlotError, WrongAnswer, _Ended)
from ._indications import (Alive, Asked, Closed, Confirmed, Handle, Indication, Lost, Notified, Overrun, Replied,
                           Restarted, Silent, Value)
from ._limits import ANY, DATAGRAM_MOST, LEASE_MOST, LINE_MOST, MD_MOST, PATH_MOST, PD_MOST, SLOTS_MOST
from ._names import TelegramTable
from ._operator import Kinds, Operator, Totals, Usage
from ._place import control_place
from ._readings import decimals_of, reading_of
from ._slot import Slot
from ._timedates import TimeDate48, TimeDate64
from ._types import (AS_TYPES, BASIC_TYPES, COUNT_TYPES, DEPTH_MOST, FIRST_DATASET, REAL_TYPES, TYPE_NAMES, Element,
                     Number, Time, is_count)

__all__ = [
    "ANY", "AS_TYPES", "BASIC_TYPES", "COUNT_TYPES", "DATAGRAM_MOST", "DEPTH_MOST", "FIRST_DATASET", "LEASE_MOST",
    "LINE_MOST", "MD_MOST", "PATH_MOST", "PD_MOST", "REAL_TYPES", "SLOTS_MOST", "TYPE_NAMES",
    "Alive", "AlreadyClosed", "Asked", "AsyncSlot", "Busy", "Closed", "ConfigFault", "Confirmed", "Datasets",
    "DoesNotFit", "Element", "Handle", "Indication", "Kinds", "Lost", "NoAnswer", "Nobody", "Notified", "Number",
    "Operator", "OperatorsPort", "OtherSlot", "Overrun", "Refused", "Replied", "Restarted", "Silent", "Slot",
    "SlotError", "TelegramTable", "Time", "TimeDate48", "TimeDate64", "Totals", "Usage", "Value", "WrongAnswer",
    "control_place", "decimals_of", "is_count", "reading_of",
]

# By these names they are pickled, and shown in a traceback. The modules that define them are no one's but the client's.
for _public in (*(globals()[name] for name in __all__), _Ended):
    if getattr(_public, "__module__", "").startswith(f"{__name__}."):
        _public.__module__ = __name__
del _public
