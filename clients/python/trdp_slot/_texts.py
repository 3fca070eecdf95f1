"""The texts that arrays of CHAR8 and UTF16 are: in UTF-8, and in UTF-16 with the highest byte first."""
from __future__ import annotations

from collections.abc import Mapping

from ._misfits import Misfit
from ._shown import shown

ENCODINGS: Mapping[str | int, tuple[str, int]] = {"CHAR8": ("utf-8", 1), "UTF16": ("utf-16-be", 2)}
"""Of a type whose arrays are texts: the encoding, and how many bytes a value has."""


def text_bytes(kind: str | int, text: str) -> bytes:
    """The bytes of a text, without a zero behind it. Raises Misfit."""
    try:
        data = text.encode(ENCODINGS[kind][0])
    except UnicodeEncodeError:
        raise Misfit(f"{shown(text)} is no text of {kind}") from None
    if "\0" in text:
        raise Misfit(f"{shown(text)} has a zero, where a text ends")
    return data


def text_of(kind: str | int, data: bytes) -> str | None:
    """The text of these bytes, which ends before the first zero; None where they are no text."""
    encoding, width = ENCODINGS[kind]
    end = data.find(bytes(width))
    while end % width and end > 0:
        # The zeros are halves of two numbers.
        end = data.find(bytes(width), end + 1)
    try:
        return (data if end < 0 else data[:end]).decode(encoding)
    except UnicodeDecodeError:
        return None
