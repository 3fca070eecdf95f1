"""The lines that mark a place among the answers."""
from __future__ import annotations

import re

# A line that can't be read is answered by its fault, and does nothing. So these, which are no calls, mark a place
# among the answers: three, of which one after the other is sent, so that a mark that comes twice isn't taken for
# the next one.
MARKS = (("mark", "line fault Unknown"), ("get", "line fault Count"), ("get mark", "line fault BadWord"))
LINE_FAULT = re.compile("line fault [A-Z][A-Za-z0-9]*")
# The operator's port answers each line of a slot so, marks too.
UNKNOWN = "line fault Unknown"


class Marks:
    """Which marks were sent, and whose answers are awaited."""

    def __init__(self) -> None:
        self.awaited: list[str] = []  # the answers to the latest marks, where they haven't come
        self.end = 0.0  # until when they are waited for
        self._next = 0  # from which of MARKS on the next one is chosen

    def choose(self, is_sure: bool) -> str:
        """The next mark whose answer isn't awaited already. It is awaited from now on. `is_sure` is whether the port is
        known to be the slot's."""
        free = [it for it in MARKS[self._next:] + MARKS[:self._next] if it[1] not in self.awaited]
        # The operator's port would answer one of them as a slot's does: until the port is known it is the last choice.
        line, answer = min(free, key=lambda it: not is_sure and it[1] == UNKNOWN)
        self._next = MARKS.index((line, answer)) + 1
        self.awaited.append(answer)
        return line

    @property
    def has_free(self) -> bool:
        """Whether there is a mark whose answer isn't awaited."""
        return len(self.awaited) < len(MARKS)

    def note(self, answer: str) -> None:
        """The answer to a mark came, and none to an earlier one comes after it."""
        del self.awaited[:self.awaited.index(answer) + 1]
