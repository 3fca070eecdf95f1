"""The lines of a crate by what they are, for docs/tools/figures and docs/tools/house.

Lines are counted without blank ones, comments and imports: of code; of contracts (clauses, ghost items and the
attributes that name tactics); of definitions (specs/); of proof (proofs/).
"""
from __future__ import annotations

import re
from collections import Counter
from collections.abc import Iterator
from pathlib import Path

KINDS = ("code", "contract", "definition", "proof")
CONTRACT = re.compile(r"\s*(?:requires|ensures|(?:pub(?:\([a-z]+\))? )?ghost|#!?\[tactic)\b")
IMPORT = re.compile(r"\s*(?:unfoldable )?(?:pub(?:\([a-z]+\))? )?(?:ghost )?use\b")
COMMENT = {".rt": "//", ".antt": "--"}


def depth_of(line: str) -> int:
    """How many brackets a line opens more than it closes."""
    return sum(line.count(it) for it in "{[(") - sum(line.count(it) for it in "}])")


def lines_of(path: Path) -> Iterator[tuple[str, bool]]:
    """The lines of a file that count, and whether each is of a contract: a statement ends with its brackets."""
    depth, word = 0, ""
    for line in path.read_text().splitlines():
        if not line.strip() or line.lstrip().startswith(COMMENT[path.suffix]):
            continue
        if not depth:
            word = "import" if IMPORT.match(line) else "contract" if CONTRACT.match(line) else ""
        depth = max(depth + depth_of(line), 0) if word else 0
        if word != "import":
            yield line, word == "contract"


def count_crate(crate: Path) -> Counter[str]:
    """How many lines of each kind a crate has."""
    counted: Counter[str] = Counter()
    for path in sorted(crate.glob("src/**/*.rt")):
        for _, is_contract in lines_of(path):
            counted["contract" if is_contract else "code"] += 1
    for folder, kind in (("specs", "definition"), ("proofs", "proof")):
        counted[kind] = sum(1 for path in crate.glob(f"{folder}/**/*.antt") for _ in lines_of(path))
    return counted
