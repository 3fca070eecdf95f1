"""What an import loses, and what else there is to know."""
from __future__ import annotations

from typing import NamedTuple


class _Entry(NamedTuple):
    """A line of the report. Those of one line of the file are sorted with the losses first."""

    line: int
    is_note: bool
    text: str

    def __str__(self) -> str:
        return f"{'note' if self.is_note else 'loss'}: line {self.line}, {self.text}"


class Report:
    """Losses and notes, each with a line of the file, and each once."""

    def __init__(self) -> None:
        self._entries: dict[_Entry, None] = {}

    def loss(self, line: int, text: str) -> None:
        """Adds something that the node does not do as the file says."""
        self._entries[_Entry(line, False, text)] = None

    def note(self, line: int, text: str) -> None:
        """Adds something that is to be known."""
        self._entries[_Entry(line, True, text)] = None

    @property
    def has_losses(self) -> bool:
        """Whether anything is lost."""
        return any(not it.is_note for it in self._entries)

    def lines(self) -> list[str]:
        """The report, in the order of the file's lines."""
        return [str(it) for it in sorted(self._entries, key=lambda it: it[:2])]
