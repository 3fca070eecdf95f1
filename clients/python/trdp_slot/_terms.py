"""What a client of a slot was given."""
from __future__ import annotations

from dataclasses import dataclass


@dataclass
class Terms:
    """Where the control port is, which slot it has to belong to, and how long and how often a client asks there."""

    number: int | None  # the slot's; None until the first answer says it
    answer_us: int
    tries: int
    restore: bool
    lease_us: int | None
    place: tuple[str, int] | None = None
    path: str | None = None  # of a control socket, which is used then, and not the place

    @property
    def patience(self) -> float:
        """How many seconds are waited for what may be tried again."""
        return self.answer_us * self.tries / 1_000_000

    @property
    def answer_seconds(self) -> float:
        """How many seconds the answer to a mark is waited for."""
        return self.answer_us / 1_000_000 if self.path is None else self.patience

    def place_text(self) -> str:
        """The control port, as a fault shows it."""
        if self.path is not None:
            return self.path
        assert self.place is not None
        return f"{self.place[0]}:{self.place[1]}"

    def tries_of(self, tries: int | None) -> int:
        """How often a call is sent that may be sent twice."""
        return self.tries if tries is None else tries
