"""What can be counted or compared in the repository, for docs/tools/check_names: the numbers, the map's crates, the
first lines of modules, and the configurations with all keys."""
from __future__ import annotations

import re
from collections.abc import Iterator
from typing import NamedTuple

from declared_names import TOP, crate_lines, tracked


class Look(NamedTuple):
    """A word of a file that was looked at, and why it is at fault; no reason where it isn't."""

    path: str
    line: int
    word: str
    why: str


MAP = "docs/ARCHITECTURE.md"
ALL_KEYS = "A key that isn't named here is ignored"
BUILD = re.compile(r"(\d+ to \d+) minutes on\s+four processors")
# How a text tells a number, and what it is the number of.
TOLD = (
    (r"rows: (\d+) played", "rows"),
    (r"(\d[\d,]*)\s+(?:short\s+)?scripts\b", "scripts"),
    (r"(\d[\d,]*)\s+configurations\s+that\s+aren't\s+taken", "configurations"),
    (r"(\d[\d,]*)\s+rows\b", "rows"),
    (r"(\d[\d,]*)\s+examples\b(?!/)", "examples"),
    (r"(\d[\d,]*)\s+crates\b", "crates"),
    (r"(\d[\d,]*)\s+tests\b", "tests"),
    (r"(\d[\d,]*)\s+(?:must-fail\s+edits|wrong\s+bodies)\b", "edits"),
)


def line_of(text: str, place: int) -> int:
    """The number of the line of a place in a text."""
    return text.count("\n", 0, place) + 1


def counted() -> dict[str, int]:
    """What there is of each thing of which a text may tell the number."""
    rows = [row for path in TOP.glob("rows/*.rows")
            for row in re.split(r"^== ", path.read_text(), flags=re.MULTILINE)[1:]]
    refused = sum("\n  ! config fault" in row for row in rows)
    return {
        "rows": len(rows), "configurations": refused, "scripts": len(rows) - refused,
        "examples": len([*TOP.glob("examples/*.script"), *TOP.glob("examples/*/*.script")]),
        "crates": len(crate_lines()),
        "edits": len(list(TOP.glob("crates/*/must-fail/*.edit"))),
        "tests": sum(path.read_text().count("#[test]") for path in TOP.glob("crates/*/src/**/*.rt")),
    }


def number_looks(path: str, text: str, real: dict[str, int]) -> Iterator[Look]:
    """The numbers that a text tells of what can be counted."""
    for pattern, what in TOLD:
        for found in re.finditer(pattern, text):
            why = "" if int(found[1].replace(",", "")) == real[what] else f"it is {real[what]}"
            yield Look(path, line_of(text, found.start(1)), " ".join(found[0].split()), why)
    said = BUILD.search((TOP / "run").read_text())
    for found in BUILD.finditer(text):
        why = "" if said and said[1] == found[1] else f"./run says {said[1] if said else 'nothing'}"
        yield Look(path, line_of(text, found.start()), " ".join(found[0].split()), why)


def crate_looks(lines: list[str]) -> Iterator[Look]:
    """The crates of the map, each of which has a row in a table."""
    for crate in crate_lines():
        has_row = any(line.startswith(f"| `{crate}` |") for line in lines)
        yield Look(MAP, 1, crate, "" if has_row else "it has no row in a table")


def module_looks() -> Iterator[Look]:
    """The source files of all crates, each of which begins with a line that says what its module is."""
    for path in sorted(TOP.glob("crates/*/src/**/*.rt")):
        has_words = path.read_text().startswith("//! ")
        why = "" if has_words else "it does not begin with a line that says what the module is"
        yield Look(str(path.relative_to(TOP)), 1, path.stem, why)


def key_looks() -> Iterator[Look]:
    """The keys of each configuration that says it names them all."""
    source = (TOP / "crates" / "trdp_dataset" / "src" / "key.rt").read_text()
    keys = re.findall(r'\brow\(\s*"(\w+)"', source)
    for path in tracked():
        text = (TOP / path).read_text() if path.endswith(".toml") else ""
        if ALL_KEYS in text:
            for key in keys:
                why = "" if re.search(rf"\b{key}\b", text) else "a key that isn't named here, and isn't ignored"
                yield Look(path, line_of(text, text.index(ALL_KEYS)), key, why)


def all_looks() -> Iterator[Look]:
    """The map, the modules, the configurations, and what the program's own starter says."""
    yield from crate_looks((TOP / MAP).read_text().splitlines())
    yield from module_looks()
    yield from key_looks()
    yield from number_looks("run", (TOP / "run").read_text(), counted())
