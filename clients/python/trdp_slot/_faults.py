"""What goes wrong: what this client raises."""
from __future__ import annotations

from ._shown import cut, shown


class SlotError(Exception):
    """What this client itself raises. An argument that is out of its range is a ValueError or a TypeError instead."""


class Refused(SlotError):
    """The node refused a call, which changed nothing.

    `name` is the refusal's name by docs/SCRIPT.md, as "NoHandle"; `line` the call; `tries` how often it had been
    sent by then: where that is more than once, an earlier try may have taken effect.
    """

    def __init__(self, name: str, line: str, tries: int = 1) -> None:
        super().__init__(f"{name}: {cut(line)}")
        self.name = name
        self.line = line
        self.tries = tries


class NoAnswer(SlotError, TimeoutError):
    """No answer to a call came in its time, at any try, or before its connection ended. Whether it took effect isn't
    known."""


class Nobody(NoAnswer, ConnectionRefusedError):
    """Nobody is at the control port, as the system said of the latest try: that one didn't take effect."""


class Busy(SlotError):
    """Another application lives at the path of the control socket, or four operators do. The call took no effect."""

    def __init__(self, place: str) -> None:
        super().__init__(f"{place} is busy: another one lives there")


class _Ended(NoAnswer):
    """The connection has ended. `is_taken` is whether the node may have taken the call."""

    is_taken = False


class OtherSlot(SlotError):
    """The control port belongs to another slot; `line` is what it answered. The first call of a `Slot` has changed
    nothing there, because the client asks before it. A later call, after a restart of the daemon with other ports, may
    have taken effect in the other slot."""

    def __init__(self, place: str, number: int, line: str) -> None:
        super().__init__(f"{place} is the port of another slot than slot {number}: it says {shown(line)}")
        self.line = line


class OperatorsPort(SlotError):
    """A `Slot` was made for the operator's port. Nothing was changed there."""

    def __init__(self, place: str) -> None:
        super().__init__(f"{place} is the operator's port, and no slot's")


class WrongAnswer(SlotError):
    """The port answered what no trdpd answers, so that it is the port of another program, or of another version.
    `line` is the answer. Whether the call took effect isn't known."""

    def __init__(self, place: str, line: str) -> None:
        super().__init__(f"{place} answers what no trdpd answers: {shown(line)}")
        self.line = line


class AlreadyClosed(SlotError, ValueError):
    """A `Slot`, `AsyncSlot` or `Operator` was used after its `close`. The call took no effect."""

    def __init__(self, place: str) -> None:
        super().__init__(f"the client of {place} is closed")


class DoesNotFit(SlotError, ValueError):
    """A value isn't one of its dataset, or bytes aren't; the text names the place in the dataset."""


class ConfigFault(SlotError, ValueError):
    """A configuration isn't one of a node, or lacks what is asked of it."""
