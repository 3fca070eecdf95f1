"""The basic types of elements, as a device configuration names them, and what they are for a node."""
from __future__ import annotations

from typing import NamedTuple


class Basic(NamedTuple):
    """A basic type: how a node's configuration says it, what its key `as` is, "" for none, and its bytes."""

    type: str
    as_: str
    size: int


BASIC = {
    "BOOL8": Basic("BOOL8", "", 1), "BITSET8": Basic("BITSET8", "", 1),
    "ANTIVALENT8": Basic("BITSET8", "ANTIVALENT8", 1),
    "CHAR8": Basic("CHAR8", "", 1), "UTF8": Basic("CHAR8", "", 1), "UTF16": Basic("UTF16", "", 2),
    "INT8": Basic("INT8", "", 1), "INT16": Basic("INT16", "", 2), "INT32": Basic("INT32", "", 4),
    "INT64": Basic("INT64", "", 8), "UINT8": Basic("UINT8", "", 1), "UINT16": Basic("UINT16", "", 2),
    "UINT32": Basic("UINT32", "", 4), "UINT64": Basic("UINT64", "", 8), "REAL32": Basic("UINT32", "REAL32", 4),
    "REAL64": Basic("UINT64", "REAL64", 8), "TIMEDATE32": Basic("TIMEDATE32", "", 4),
    "TIMEDATE48": Basic("TIMEDATE48", "", 6), "TIMEDATE64": Basic("TIMEDATE64", "", 8),
}
"""The basic types by their names."""

NUMBERED = dict(enumerate((
    "BITSET8", "CHAR8", "UTF16", "INT8", "INT16", "INT32", "INT64", "UINT8", "UINT16", "UINT32", "UINT64", "REAL32",
    "REAL64", "TIMEDATE32", "TIMEDATE48", "TIMEDATE64"), 1))
"""The names of the basic types by their numbers."""

COUNTS = {
    "UINT8": "UINT8", "UINT16": "UINT16", "UINT32": "UINT32", "INT8": "UINT8", "INT16": "UINT16", "INT32": "UINT32",
    "BITSET8": "UINT8", "BOOL8": "UINT8", "ANTIVALENT8": "UINT8",
}
"""The types that may count an array, and the unsigned type of the same width, which counts it for a node."""
