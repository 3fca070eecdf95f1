"""Names of a device as identifiers."""
from __future__ import annotations

from trdp_slot._spelling import Spelling, identifier_of, numbered

from ._report import Report

# The most characters of a name: with what is put behind it, it still names a file.
MOST = 200


class Names:
    """Identifiers of names that lie side by side, all of them different, also except for case."""

    def __init__(self, report: Report) -> None:
        self._report = report
        self._taken: set[str] = set()
        self._numbers: dict[str, int] = {}
        """Of each identifier in small letters the number that its next name is tried with. It is kept for all names
        that become this identifier, so that many of them take no longer than others."""

    def take(self, name: str) -> str:
        """The identifier of a name."""
        first = identifier = identifier_of(name[:MOST])
        number = self._numbers.get(first.lower(), 1)
        if number > 1:
            identifier = numbered(first, number)
        while identifier.lower() in self._taken:
            number += 1
            identifier = numbered(first, number)
        self._numbers[first.lower()] = number + 1
        self._taken.add(identifier.lower())
        return identifier

    def take_noted(self, name: str, line: int) -> str:
        """The same, and a note if the identifier differs from the name."""
        spelling = Spelling(name, self.take(name))
        if spelling.is_changed:
            self._report.note(line, str(spelling._replace(name=name[:MOST])))
        return spelling.identifier
