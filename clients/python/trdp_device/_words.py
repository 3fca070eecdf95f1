"""What the attributes of an element say. Whatever can't be meant is a DeviceFault with the element's line."""
from __future__ import annotations

import ipaddress
import math
import re
from collections.abc import Sequence

from ._faults import DeviceFault
from ._shown import shown
from ._tree import Node

U32_MOST = 0xFFFFFFFF
# The blanks of XML, which its schema drops around a number.
BLANKS = " \t\r\n"
NUMBER = re.compile(r"\+?0*([0-9]{1,10})")
REAL = re.compile(r"[+-]?([0-9]+(\.[0-9]*)?|\.[0-9]+)([eE][+-]?[0-9]+)?")


def text_at(node: Node, name: str) -> str | None:
    """The text of an attribute, without blanks around it; None if it is empty or missing."""
    return node.attributes.get(name, "").strip(BLANKS) or None


def fault_at(node: Node, name: str, text: str, wanted: str) -> DeviceFault:
    """The fault of an attribute."""
    return DeviceFault(node.line, f"{name} {shown(text)} is {wanted}")


def missing(node: Node, name: str) -> DeviceFault:
    """The fault of an element without an attribute that it needs."""
    return DeviceFault(node.line, f"{node.name} has no {name}")


def number_of(node: Node, name: str, text: str, low: int, high: int) -> int:
    """A whole number, as XML's schema has them: with leading zeros, and with a plus."""
    found = NUMBER.fullmatch(text)
    if found and low <= int(found[1]) <= high:
        return int(found[1])
    raise fault_at(node, name, text, f"no number of {low} to {high}")


def number_at(node: Node, name: str, low: int = 0, high: int = U32_MOST) -> int | None:
    """The whole number of an attribute; None if it is empty or missing."""
    text = text_at(node, name)
    return None if text is None else number_of(node, name, text, low, high)


def needed_number_at(node: Node, name: str) -> int:
    """The whole number of an attribute that has to be there."""
    number = number_at(node, name)
    if number is None:
        raise missing(node, name)
    return number


def real_at(node: Node, name: str, default: float) -> float:
    """The number of an attribute, which need not be whole."""
    text = text_at(node, name)
    if text is None:
        return default
    if REAL.fullmatch(text) and math.isfinite(float(text)):
        return float(text)
    raise fault_at(node, name, text, "no finite number")


def choice_at(node: Node, name: str, choices: Sequence[str]) -> str | None:
    """The one of these words that an attribute is; None if it is empty or missing."""
    text = text_at(node, name)
    if text is None or text in choices:
        return text
    raise fault_at(node, name, text, f"none of {', '.join(choices)}")


def address_at(node: Node, name: str) -> ipaddress.IPv4Address | None:
    """The address of an attribute; None if it is empty, missing or 0.0.0.0."""
    text = text_at(node, name)
    if text is None:
        return None
    try:
        address = ipaddress.IPv4Address(text)
    except ValueError:
        raise fault_at(node, name, text, "no address, as 10.0.0.2") from None
    return None if address.is_unspecified else address
