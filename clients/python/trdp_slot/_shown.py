"""How values and lines are shown in the text of a fault."""
from __future__ import annotations

from typing import Any


def shown(value: Any) -> str:
    try:
        text = repr(value)
    except ValueError:
        text = f"a {type(value).__name__} of very many digits"
    except RecursionError:
        text = f"a {type(value).__name__} that nests very deep"
    return text if len(text) <= 40 else text[:37] + "..."


def cut(line: str) -> str:
    """The beginning of a line, as a fault shows it."""
    return line if len(line) <= 80 else line[:77] + "..."
