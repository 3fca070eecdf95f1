"""How the objects of a slot are made, and made again."""
from __future__ import annotations

from ._asking import Asking
from ._faults import _Ended, NoAnswer, Refused
from ._indications import Handle
from ._objects import Objects
from ._terms import Terms
from ._words import hex_word

# How often a slot may restart while its objects are made again.
RESTORES_MOST = 10


class Restoring:
    """Sees to it that the slot has the objects that its client declared."""

    def __init__(self, terms: Terms, objects: Objects, asking: Asking) -> None:
        self._terms = terms
        self._objects = objects
        self._asking = asking

    def prepare(self) -> None:
        """Sees to it that the slot is as this client has it, before a call is made: that the port is the slot's, that
        it was reset for this client, and has all that is to be made again."""
        self._asking.make_sure()
        if not self._objects.is_whole:
            self.restore()
        elif self._asking.is_reset_due:
            self._asking.reset_slot(self._terms.tries)

    def make(self, handle: Handle, tries: int) -> bool:
        """Has the node make an object, by the line of its handle. Answers whether its number is new: else the daemon
        was started again, which is reported; where objects are made again by a reset, this one has to be, too."""
        assert handle._line is not None
        number = int(self._asking.ask([handle._line], "handle", tries)[1])
        is_new = number > self._objects.highest
        if not is_new:
            self._objects.void()
        handle.number = number
        self._objects.note(handle)
        return is_new

    def restore(self) -> None:
        """Makes all declared objects again, after a reset, so that no half of an earlier try stays. Where that fails
        the slot isn't whole, and the next call begins again."""
        for _ in range(RESTORES_MOST):
            if self._restores():
                return
        raise NoAnswer(f"{self._terms.place_text()}: the slot began anew {RESTORES_MOST} times, and its objects "
                       "weren't made again")

    def _restores(self) -> bool:
        """The same; False where the slot restarted meanwhile."""
        objects = self._objects
        highest = objects.highest
        objects.begin_start()
        objects.highest = highest
        try:
            self._asking.reset_slot(self._terms.tries)
            for handle in list(objects.declared):
                if not self.make(handle, 1):
                    return False
                if handle._data is not None:
                    put = ["put", str(handle.number), hex_word(handle._data)]
                    self._asking.ask(put, "done", self._terms.tries)
        except _Ended:
            return False
        except Refused as refusal:
            if refusal.name != "NoHandle":
                raise
            objects.void()
            return False
        objects.is_whole = True
        return True
