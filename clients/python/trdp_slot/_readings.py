"""Values as people read them: with names and units, scaled, and the raw number beside what isn't one.

    {4, state: [0, 2, 0, 0], speed: 25.3 km/h (253), locked: True (1)}

A dataset without any name is a list as ever, `[4, [0, 2, 0, 0], 0]`. An element with neither a name nor the key `as` is
shown raw: its numbers aren't taken for a bool or a text.
"""
from __future__ import annotations

import decimal
import functools
import struct
from collections.abc import Callable, Sequence
from typing import Any

from ._items import MEANINGS, REAL_CODES
from ._types import Element

DECIMALS_MOST = 15
SCALED_MOST = 10.0 ** DECIMALS_MOST  # up to which a float has all digits of a whole number
# How many digits a float of a type has at least and at most, so that it is no other one of the type.
DIGITS = {"REAL32": (6, 9), "REAL64": (15, 17)}


def is_scaled(element: Element) -> bool:
    """Whether people read another number than the raw one."""
    return element.scale != 1 or element.offset != 0


def is_read_raw(element: Element) -> bool:
    """Whether the reading of an element is made of its raw numbers, and not of what they mean."""
    is_plain = element.name is None and element.as_ is None
    return is_plain or is_scaled(element) and element.as_ not in REAL_CODES


@functools.cache
def decimals_of(element: Element) -> int | None:
    """How many decimals scale and offset have, and so the number that people read. None where these are too many, and
    for a REAL, which has decimals of its own."""
    exponents = [decimal.Decimal(repr(it)).normalize().as_tuple().exponent for it in (element.scale, element.offset)]
    most = max(0, *(-it for it in exponents if isinstance(it, int)))
    return None if element.as_ in REAL_CODES or most > DECIMALS_MOST else most


def dataset_reading(elements: Sequence[Element], entries: Sequence[Any]) -> str:
    """The reading of a value of a dataset. In its entries a value of another dataset is a reading already."""
    texts = []
    for element, entry in zip(elements, entries):
        text = joined(entry) if isinstance(element.type, int) else reading_of(element, entry)
        texts.append(text if element.name is None else f"{element.name}: {text}")
    whole = ", ".join(texts)
    return f"[{whole}]" if all(it.name is None for it in elements) else f"{{{whole}}}"


def reading_of(element: Element, entry: Any) -> str:
    """The reading of an element of a basic type, of which a value by names has that entry: `25.3 km/h (253)`. Where the
    raw numbers are others than what is read, they are in brackets."""
    read = entry_text(element, entry, number_reading) + (f" {element.unit}" if element.unit else "")
    items = entry if isinstance(entry, list) else [entry]
    is_other = is_scaled(element) or any(isinstance(it, bool) for it in items)
    return f"{read} ({entry_text(element, entry, raw_text)})" if is_other else read


def entry_text(element: Element, entry: Any, text: Callable[[Element, Any], str]) -> str:
    """An entry with that text of each number."""
    if isinstance(entry, list):
        return joined([text(element, it) for it in entry])
    return repr(entry) if isinstance(entry, str) else text(element, entry)


def joined(texts: str | list[str]) -> str:
    """Readings of an array as one."""
    return texts if isinstance(texts, str) else f"[{', '.join(texts)}]"


def number_reading(element: Element, value: Any) -> str:
    """What people read of a single value."""
    if isinstance(value, bool):
        return str(value)
    if isinstance(value, tuple) or not is_scaled(element):
        return raw_text(element, value)
    return scaled_text(element, value)


def scaled_text(element: Element, raw: float) -> str:
    """The number `raw * scale + offset`, with the decimals of scale and offset where a float has so many digits."""
    product, decimals = raw * element.scale, decimals_of(element)
    number = product + element.offset
    if decimals is not None and max(abs(product), abs(element.offset)) * 10.0 ** decimals < SCALED_MOST:
        return f"{number:z.{decimals}f}"
    return f"{number:.7g}" if element.as_ == "REAL32" else f"{number:.15g}"


def raw_text(element: Element, value: Any) -> str:
    """The raw number of a single value, and that of a REAL with as few digits as no other one of its type has."""
    if isinstance(value, bool):
        meanings = MEANINGS[element.as_ or str(element.type)]
        return next(str(number) for number, meaning in meanings.items() if meaning == value)
    return real_text(element.as_, value) if element.as_ in REAL_CODES and isinstance(value, float) else str(value)


def real_text(kind: str, value: float) -> str:
    """A REAL with as few digits as no other number of its type has."""
    code = ">" + REAL_CODES[kind]
    fewest, most = DIGITS[kind]
    texts = (f"{value:.{digits}g}" for digits in range(fewest, most))
    same = (it for it in texts if is_same(code, float(it), value))
    return next(same, f"{value:.{most}g}")


def is_same(code: str, one: float, other: float) -> bool:
    """Whether two floats are the same number of that type."""
    try:
        return struct.pack(code, one) == struct.pack(code, other)
    except OverflowError:
        # Rounded upwards, the highest number is beyond its type.
        return False
