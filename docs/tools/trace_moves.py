"""Tries whether docs/tools/trace notices that the remark of a definition was moved to another definition.

Tags of mutants, rows and tests are not moved here: docs/tools/trace does not notice that one stands under a wrong rule,
but for a mutant that is far from it.
"""
from __future__ import annotations

import pathlib
import shutil
import tempfile

from trace_check import Trace
from trace_specs import REMARK, definitions_in

MOVES = 10


def moved(text: str, crate: str, module: str, which: int) -> str:
    """The text with its remark of that number above the next definition in place of its own; the same text where there
    is no next one."""
    lines = text.splitlines(keepends=True)
    places = [index for index, line in enumerate(lines) if line.startswith(REMARK)]
    at = places[which]
    remark = lines.pop(at)
    found = list(definitions_in(crate, module, "".join(lines)))
    own = next((it for it in found if lines[at].startswith(it.text.splitlines()[0])), None)
    follow = found[found.index(own) + 1:] if own else []
    if not follow:
        return text
    first = follow[0].text.splitlines()[0]
    place = next(index for index, line in enumerate(lines) if index > at and line.startswith(first))
    lines.insert(place, remark)
    return "".join(lines)


def try_moves(top: pathlib.Path) -> int:
    """Moves ten remarks, one at a time, and prints what is said of each. The status is 1 where one isn't noticed."""
    with tempfile.TemporaryDirectory() as folder:
        copy = pathlib.Path(folder)
        for name in ("crates", "rows", "docs", "clients"):
            shutil.copytree(top / name, copy / name, ignore=shutil.ignore_patterns("out", "proofs"))
        shutil.copy(top / "crates.txt", copy)
        paths = [it for it in sorted(copy.glob("crates/*/specs/*.antt")) if f"\n{REMARK}" in it.read_text()]
        unseen = done = 0
        for path in paths[::max(1, len(paths) // (2 * MOVES))]:
            text = path.read_text()
            changed = moved(text, path.parts[-3], path.stem, 0)
            if changed == text or done == MOVES:
                continue
            done += 1
            path.write_text(changed)
            faults = Trace(copy).faults()
            path.write_text(text)
            unseen += not faults
            print(f"{path.relative_to(copy)}: {faults[0] if faults else 'not noticed'}")
    print(f"moves: {done} tried, {unseen} not noticed")
    return 1 if unseen or done < MOVES else 0
