"""What is printed and saved of a measurement: figures of two programs side by side, and how they differ.

The sides of a measurement are `program`, `other` if there is a second program, and what both are compared with. Each
round measures all of them. The difference of two programs is taken from samples: a sample is as many rounds as count,
drawn from them with repeats. Rounds are drawn whole, since the figures of one round are of the same processes.
"""
from __future__ import annotations

import random
import statistics
from collections.abc import Callable, Mapping, Sequence
from dataclasses import dataclass
from typing import Any, Generic, TypeVar

from daemons.rounds import Rounds
from daemons.times import Attended, share

PROGRAM, OTHER = "program", "other"
SAMPLES = 200
FEWEST = 5                                        # rounds whose samples can show how far they scatter
NONE = float("nan")
Sample = TypeVar("Sample")


@dataclass(frozen=True)
class Figure(Generic[Sample]):
    """A number that the rounds of a side have together. The key is its path in a result, with dots. The printed number
    is `times` as much. If `differs` is not set, the programs are not compared by it."""

    key: str
    words: str
    unit: str
    digits: int
    of: Callable[[Sequence[Sample]], float]
    times: float = 1.0
    differs: bool = True

    def text(self, value: float) -> str:
        """A value of it as it is printed, or `-` if it was not measured."""
        return f"{self.times * value:z,.{self.digits}f}" if value == value else "-"


@dataclass(frozen=True)
class Difference:
    """How much more a figure of the other program is: the median of the samples, and the limits of nine tenths."""

    median: float
    least: float
    most: float


@dataclass(frozen=True)
class Compared:
    """A figure of each side, and how the programs differ. A figure that was not measured is not a number."""

    figure: Figure[Any]
    sides: Mapping[str, float]
    difference: Difference | None

    def text(self, side: str) -> str:
        """The figure of a side as it is printed. The other program's is followed by how the programs differ."""
        text = f"{self.figure.text(self.sides.get(side, NONE)):>14}"
        if side != OTHER:
            return text
        if self.difference is None:
            return f"{text}{'':28}"
        numbers = (self.difference.median, self.difference.least, self.difference.most)
        median, least, most = map(self.figure.text, numbers)
        return f"{text}{f'{median} ({least} to {most})':>28}"


@dataclass(frozen=True)
class Row:
    """What was measured of one thing."""

    title: str
    rounds: Mapping[str, int]
    figures: Sequence[Compared]

    def of(self, side: str) -> dict[str, object]:
        """The figures of a side, as a result has them."""
        found: dict[str, object] = {}
        for it in self.figures:
            put(found, it.figure.key, it.sides.get(side, NONE))
        return found

    def sides(self, names: Mapping[str, str]) -> dict[str, object]:
        """The rounds, and the figures of each side that was measured, by the name that a result has for it."""
        measured = {side for it in self.figures for side in it.sides}
        return {"rounds": self.rounds, **{name: self.of(side) for side, name in names.items() if side in measured}}

    def later(self) -> dict[str, object]:
        """The limits of nine tenths of the samples of each difference, as a result has them."""
        return {it.figure.key: [it.difference.least, it.difference.most] for it in self.figures if it.difference}


def put(figures: dict[str, object], key: str, value: object) -> None:
    """Puts a value at the path of its key."""
    head, _, rest = key.partition(".")
    if not rest:
        figures[head] = value
        return
    inner = figures.setdefault(head, {})
    assert isinstance(inner, dict)
    put(inner, rest, value)


def value_of(rounds: Sequence[Mapping[str, Sample]], side: str, figure: Figure[Sample]) -> float:
    """A figure of a side; not a number if no round counts."""
    return figure.of([it[side] for it in rounds]) if rounds else NONE


def difference(rounds: Sequence[Mapping[str, Sample]], figure: Figure[Sample]) -> Difference:
    """How much more a figure of the other program is."""
    if not rounds:
        return Difference(NONE, NONE, NONE)
    found = []
    for _ in range(SAMPLES):
        drawn = random.choices(rounds, k=len(rounds))
        found.append(value_of(drawn, OTHER, figure) - value_of(drawn, PROGRAM, figure))
    if len(rounds) < FEWEST:
        return Difference(share(found, 0.5), NONE, NONE)
    return Difference(share(found, 0.5), share(found, 0.05), share(found, 0.95))


def compared(rounds: Sequence[Mapping[str, Sample]], names: Sequence[str], figure: Figure[Sample]) -> Compared:
    """A figure of each side, and how the programs differ."""
    sides = {name: value_of(rounds, name, figure) for name in names}
    differs = difference(rounds, figure) if OTHER in sides and figure.differs else None
    return Compared(figure, sides, differs)


def time_figures(of: Callable[[Sample], Sequence[float]], words: str = "", key: str = "") -> list[Figure[Sample]]:
    """The figures of times in microseconds: the median, the 90th and the 99th percentile, and the number of times."""
    def part_of(part: float) -> Callable[[Sequence[Sample]], float]:
        return lambda rounds: share([time for it in rounds for time in of(it)], part)

    start, path = (f"{words}, " if words else ""), (f"{key}." if key else "")
    return [Figure(f"{path}median_us", f"{start}median", "us", 1, part_of(0.5)),
            Figure(f"{path}p90_us", f"{start}90 %", "us", 1, part_of(0.9)),
            Figure(f"{path}p99_us", f"{start}99 %", "us", 1, part_of(0.99)),
            Figure(f"{path}samples", f"{start}how many", "", 0, lambda rounds: sum(len(of(it)) for it in rounds),
                   differs=False)]


def processor_figure(of: Callable[[Sample], float]) -> Figure[Sample]:
    """The share of a processor that a node takes, which is the mean of the rounds."""
    return Figure("processor", "processor", "%", 2, lambda rounds: statistics.mean(of(it) for it in rounds), 100.0)


def attended_figures() -> list[Figure[Attended]]:
    """The figures of a node that sends on time and answers calls."""
    def processor(it: Attended) -> float:
        return it.processor

    def late(it: Attended) -> list[float]:
        return it.late

    def answers(it: Attended) -> list[float]:
        return it.answers

    return [processor_figure(processor), *time_figures(late, "late", "late"),
            *time_figures(answers, "answer", "answer")]


def ordered(sides: Mapping[str, Sample], turn: int) -> list[tuple[str, Sample]]:
    """The sides in the order in which this turn or round takes them: every second one the other way round."""
    found = list(sides.items())
    return found if turn % 2 == 0 else found[::-1]


def head(sides: Sequence[str]) -> str:
    """The line above all rows: what the columns are."""
    names = [f"{it:>14}" + (f"{'other - program':>28}" if it == OTHER else "") for it in sides]
    return f"{'':44}{''.join(names)}"


def line(it: Compared, sides: Sequence[str]) -> str:
    """The line of a figure."""
    return f"    {it.figure.words:34}{it.figure.unit:6}{''.join(map(it.text, sides))}"


def row_of(title: str, rounds: Rounds[Mapping[str, Sample]], sides: Sequence[str],
           figures: Sequence[Figure[Sample]]) -> Row:
    """A row of what rounds found together. Prints it."""
    row = Row(title, rounds.figures(), [compared(rounds.found, sides, it) for it in figures])
    print(f"{title} ({rounds.words()})")
    for it in row.figures:
        print(line(it, sides), flush=True)
    return row


def sums(rows: Sequence[Row]) -> dict[str, int]:
    """How many rounds all rows have together."""
    return {key: sum(it.rounds[key] for it in rows) for key in ("asked", "made", "counted")}
