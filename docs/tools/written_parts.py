"""The parts of a page that a script of docs/tools writes, while the rest is written by hand.

Such a part is between the line `<!-- docs/tools/SCRIPT writes WHAT -->` and the line `<!-- until here -->`.
"""
from __future__ import annotations

import re

BEGIN = re.compile(r"<!-- docs/tools/\w+ writes .+ -->")
END = "<!-- until here -->"


class NoPlace(Exception):
    """Why a part cannot be written."""


def without_written(lines: list[str]) -> list[str]:
    """The lines of a page, of which those that a script writes are empty."""
    found, is_written = [], False
    for line in lines:
        is_written = (is_written or bool(BEGIN.fullmatch(line))) and line != END
        found.append("" if is_written else line)
    return found


def with_part(page: str, script: str, what: str, part: str) -> str:
    """The page with another text in the part that a script writes. Raises NoPlace if it has no such part."""
    begin = f"<!-- {script} writes {what} -->\n"
    before, found, after = page.partition(begin)
    if not found or END not in after or begin in after:
        raise NoPlace(f"not one part that begins with `{begin.rstrip()}` and ends with `{END}`")
    return f"{before}{begin}\n{part}\n\n{after[after.index(END):]}"
