"""Scripts played over slots by themselves."""
from __future__ import annotations

from collections.abc import Iterator

from .beside import Beside
from .lines import LineFault, read_line
from .settings import Settings


def lines_of(script: str) -> Iterator[str]:
    """The lines of a script without their ends: a newline, and a carriage return before it. The last may lack them."""
    *whole, last = script.split("\n")
    for line in whole:
        yield line.removesuffix("\r")
    if last:
        yield last


def play(config: str, script: str) -> tuple[list[str], str | None]:
    """What a script gives, and the line's fault at which it ends, if it does."""
    beside = Beside(Settings(config))
    given: list[str] = []
    for number, line in enumerate(lines_of(script), 1):
        try:
            event = read_line(line)
        except LineFault as fault:
            return given, f"line {number} fault {fault}"
        if event is not None:
            given += beside.step(event)
    return given, None
