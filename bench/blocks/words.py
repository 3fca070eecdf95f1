"""How a table words a figure. A figure that a result lacks is None, and `-` in a table."""
from __future__ import annotations

from collections.abc import Callable, Iterable, Mapping, Sequence
from typing import Any

from results import Fault, Result

NOT_YET = "not measured yet"
NONE = "-"
Figures = Mapping[str, Any]


def short(number: float | None) -> str:
    """A figure with two digits behind the point below 1, with one below 10, and else as a whole number."""
    if number is None:
        return NONE
    size = abs(number)
    return f"{number:,.{2 if size < 0.995 else 1 if size < 9.95 else 0}f}"


def about(number: float | None) -> str:
    """A large figure with its first two digits."""
    return NONE if number is None else f"{float(f'{number:.2g}'):,.0f}"


def percent(share: float | None) -> str:
    """A share as a percentage."""
    return NONE if share is None else f"{short(100 * share)} %"


def ratio(one: float | None, other: float | None) -> str:
    """How many times as much one figure is as the other."""
    return NONE if one is None or not other else f"{one / other:.2f}"


def mib(kib: float | None) -> str:
    """Memory."""
    return NONE if kib is None else f"{kib / 1024:.1f} MiB"


def kib(size: int | None) -> str:
    """Memory that is counted in bytes."""
    return NONE if size is None else f"{size / 1024:,.0f} KiB"


def times(figures: Figures, *names: str) -> str:
    """The median and the 99th percentile, or other figures of times in microseconds."""
    return ", ".join(short(figures[f"{name}_us"]) for name in names or ("median", "p99"))


def find(rows: Iterable[Figures], **wanted: object) -> Figures:
    """The row with these values. Raises KeyError if there is none."""
    for row in rows:
        if all(row[key] == value for key, value in wanted.items()):
            return row
    raise KeyError(", ".join(f"{key} {value}" for key, value in wanted.items()))


def figure_of(result: Result, value: Callable[[Figures], str]) -> str:
    """What a row says of a result. Raises Fault if the result has not what the row needs."""
    try:
        return value(result.figures)
    except (LookupError, TypeError, ZeroDivisionError) as why:
        raise Fault(f"{result.name}.json has not what a table needs: {type(why).__name__}: {why}") from None


def date_of(result: Result) -> str:
    """When it was measured, and what a reader must know of that."""
    rounds = result.figures.get("rounds")
    is_short = isinstance(rounds, Mapping) and rounds["counted"] < rounds["asked"]
    return (result.date + ("" if result.proved else ", not proved")
            + (f", only {rounds['counted']} of {rounds['asked']} rounds count" if rounds and is_short else ""))


def table(head: Sequence[str], rows: Iterable[Sequence[str]]) -> list[str]:
    """The lines of a table."""
    lines = [head, ["---"] * len(head), *rows]
    return [f"|{'|'.join(it)}|" if it[0] == "---" else f"| {' | '.join(it)} |" for it in lines]
