"""The rows in a terminal: what `trdp-dump --table` shows."""
from __future__ import annotations

import contextlib
import curses
import sys
import time
from collections.abc import Collection
from dataclasses import dataclass
from enum import IntEnum

import trdp_words
from trdp_ports import Taker

from .network import Network
from .report import place_of, row_text
from .rows import Row
from .sources import Live

REFRESH = 0.25
"""How many seconds are between two pictures at most."""
LATELY_US = 10_000_000
"""How long a mark is shown as what is so, and not as what was."""
# The columns and their widths; those of numbers are on the right. The last one takes what is left.
COLUMNS = (("State", 18), ("comId", -10), ("Type", 4), ("Name", 14), ("From", 15), ("To", 15), ("Count", -8),
           ("Cycle", -9), ("Median", -9), ("Worst", -9), ("Gaps", -5), ("Age", -7), ("Value", 0))


class Severity(IntEnum):
    """How bad the state of a row is, the worst first."""

    BAD = 0
    WAS_BAD = 1
    GOOD = 2


@dataclass(frozen=True)
class Line:
    """A line of the picture."""

    severity: Severity
    cells: tuple[str, ...]

    def text(self) -> str:
        """The line, whose last cell is as long as it is."""
        found = [cut(cell, width) for cell, (_, width) in zip(self.cells, COLUMNS, strict=True)]
        return "  ".join(found).rstrip()


def cut(cell: str, width: int) -> str:
    """A cell in so many letters, on the right if the width is below 0."""
    if not width:
        return cell
    found = cell if len(cell) <= abs(width) else cell[:abs(width) - 1] + "~"
    return found.ljust(width) if width > 0 else found.rjust(-width)


def milliseconds(time_us: int | None) -> str:
    """A time as it is shown; nothing for none."""
    return "" if time_us is None else f"{time_us / 1000:.1f} ms"


def state_of(network: Network, row: Row, now_us: int) -> tuple[Severity, str]:
    """How bad a row is, and what is said of it: marks that are old, as what was."""
    marks = row.marks(network.file.is_there)
    past = [it for it in marks if now_us - row.marked.get(it, now_us) >= LATELY_US]
    words = [*["silent"] * row.is_silent, *[f"was: {it}" if it in past else str(it) for it in marks]]
    if row.is_silent or len(past) < len(marks):
        return Severity.BAD, ", ".join(words)
    return (Severity.WAS_BAD, ", ".join(words)) if marks else (Severity.GOOD, "ok")


def row_line(network: Network, row: Row, now_us: int) -> Line:
    """The line of a row."""
    severity, state = state_of(network, row, now_us)
    name = row.known.name if row.known is not None else None
    cycle = row.known.cycle_us if row.known is not None else None
    cells = (state, str(row.key.com_id), row.key.kind, name or "", row.key.source, row.key.dest, str(row.count),
             milliseconds(cycle), milliseconds(row.cycles.median_us()), milliseconds(row.cycles.worst_us),
             str(row.counting.gaps), f"{max(0, now_us - row.heard_us) / 1_000_000:.1f} s", row_text(network, row) or "")
    return Line(severity, tuple(trdp_words.printable(it) for it in cells))


def missing_line(network: Network, com_id: int) -> Line:
    """The line of a telegram that was never seen."""
    known = network.file.known[com_id]
    cells = ("never seen", str(com_id), "", known.name or "", "", "", "0", milliseconds(known.cycle_us), *[""] * 5)
    return Line(Severity.BAD, tuple(trdp_words.printable(it) for it in cells))


@dataclass(frozen=True)
class Wanted:
    """Which rows are shown: those of one of the comIds and of one of the types; all if there are none."""

    com_ids: Collection[int] = ()
    kinds: Collection[str] = ()

    def takes(self, com_id: int, kind: str | None) -> bool:
        """Whether a row is shown; one of a telegram that was never seen has no type."""
        return (not self.com_ids or com_id in self.com_ids) and (not self.kinds or kind in self.kinds)


def lines_of(network: Network, wanted: Wanted, now_us: int) -> list[Line]:
    """The lines of all rows, what is wrong first."""
    network.look(now_us)
    rows = sorted((it for it in network.rows.by_key.values() if wanted.takes(it.key.com_id, it.key.kind)), key=place_of)
    missing = [missing_line(network, it) for it in network.missing() if wanted.takes(it, None)]
    return sorted([*missing, *(row_line(network, it, now_us) for it in rows)], key=lambda it: it.severity)


class Screen:
    """A terminal that shows the lines from a first one on."""

    def __init__(self, window: curses.window, title: str) -> None:
        self.window = window
        self.title = title
        self.first = 0
        self.colours = {it: 0 for it in Severity}
        window.nodelay(True)
        with contextlib.suppress(curses.error):
            curses.curs_set(0)
            curses.use_default_colors()
            for number, (severity, colour) in enumerate(
                    [(Severity.BAD, curses.COLOR_RED), (Severity.WAS_BAD, curses.COLOR_YELLOW)], 1):
                curses.init_pair(number, colour, -1)
                self.colours[severity] = curses.color_pair(number) | curses.A_BOLD

    def draw(self, lines: list[Line]) -> None:
        """Shows lines."""
        height, _ = self.window.getmaxyx()
        room = max(0, height - 2)
        self.first = max(0, min(self.first, len(lines) - room))
        self.window.erase()
        self.put(0, f"{self.title}: {len(lines)} rows; arrows and pages move, q ends", curses.A_BOLD)
        self.put(1, Line(Severity.GOOD, tuple(name for name, _ in COLUMNS)).text(), curses.A_UNDERLINE)
        for at, line in enumerate(lines[self.first:self.first + room]):
            self.put(at + 2, line.text(), self.colours[line.severity])
        self.window.refresh()

    def put(self, y: int, text: str, attributes: int) -> None:
        """Shows a line, as far as there is room."""
        _, width = self.window.getmaxyx()
        # A terminal too small for the line is no fault.
        with contextlib.suppress(curses.error):
            self.window.addnstr(y, 0, text, max(0, width - 1), attributes)

    def answer(self) -> bool:
        """Does what the keys say that were pressed. Answers whether it goes on."""
        height, _ = self.window.getmaxyx()
        steps = {curses.KEY_UP: -1, curses.KEY_DOWN: 1, curses.KEY_PPAGE: 2 - height, curses.KEY_NPAGE: height - 2}
        while (key := self.window.getch()) != curses.ERR:
            if key == ord("q"):
                return False
            self.first += steps.get(key, 0)
        return True


def run(window: curses.window, taker: Taker, network: Network, wanted: Wanted, end: float | None) -> None:
    """Shows the rows of what comes before a moment of `time.monotonic`, or until `q` is pressed."""
    screen, source = Screen(window, " and ".join(taker.where.homes)), Live(taker)
    due = time.monotonic()
    while screen.answer() and (end is None or time.monotonic() < end):
        if time.monotonic() >= due:
            screen.draw(lines_of(network, wanted, source.now_us()))
            due = time.monotonic() + REFRESH
        for came in source.take(due if end is None else min(due, end)):
            network.add(came)


def show(taker: Taker, network: Network, wanted: Wanted, end: float | None) -> None:
    """The same in this terminal. Raises ValueError if there is none."""
    if not sys.stdout.isatty():
        raise ValueError("--table wants a terminal, and standard output is none")
    try:
        curses.wrapper(run, taker, network, wanted, end)
    except curses.error as fault:
        raise ValueError(f"--table: {fault}") from None
