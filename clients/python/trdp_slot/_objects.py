"""The objects of a slot, as its client knows them."""
from __future__ import annotations

import collections
import math
import uuid

from ._faults import Refused
from ._indications import (DECLARED, Alive, Asked, Closed, Confirmed, Handle, Indication, Notified, Overrun, Replied,
                           Restarted, Silent)
from ._terms import Terms
from ._times import Times
from ._words import bytes_of, number_word, typed, uri_of


class Objects:
    """Which objects the slot has, by the handles that the node gave, which of them are declared, and what the node told
    of them."""

    def __init__(self, terms: Terms, times: Times) -> None:
        self._terms = terms
        self._times = times
        self.told: collections.deque[Indication] = collections.deque()
        self.declared: list[Handle] = []
        self.highest = 0  # of the handles that the node gave
        self.start = 0  # how often the slot was seen to restart
        self.is_whole = True  # whether all that was declared is there, as far as this client makes it again
        self.is_restart_untold = False  # whether the slot has restarted, and `check` hasn't said so
        self._handles: dict[int, Handle] = {}

    def note(self, handle: Handle) -> Handle:
        """Notes a handle that the node gave."""
        handle._start = self.start
        self._handles[handle.number] = handle
        self.highest = max(self.highest, handle.number)
        return handle

    def forget(self, handle: Handle | int) -> Handle:
        """Forgets an object that is over."""
        if isinstance(handle, int):
            handle = self._handles.get(handle) or Handle("unknown", handle)
        if self._handles.get(handle.number) is handle:
            del self._handles[handle.number]
        if handle in self.declared:
            self.declared.remove(handle)
        return handle

    def void(self) -> None:
        """Voids all handles: the slot that gave them has restarted."""
        lost = [it for it in self._handles.values() if it.kind not in DECLARED]
        self.begin_start()
        self.is_whole = not (self._terms.restore and self.declared)
        self.is_restart_untold = True
        self.told.append(Restarted(tuple(self.declared), tuple(lost)))

    def begin_start(self) -> None:
        """From here on no earlier handle is one of an object."""
        self._handles.clear()
        self.highest = 0
        self.start += 1
        # What is to be done about it is due at once.
        self._times.tried = -math.inf

    def forget_all(self) -> None:
        """The slot was reset for this client, so that there is nothing that a restart could have ended."""
        self.declared.clear()
        # A number that the node gives a second time, after a restart that nobody noticed, ends nothing any more.
        self.begin_start()
        self.is_whole = True
        self.is_restart_untold = False

    def is_there(self, handle: Handle | int) -> bool:
        """Whether the slot has the object, as far as this client knows."""
        return isinstance(handle, Handle) and handle._start == self.start

    def known(self) -> Handle | None:
        """A declared object that the slot has, as far as this client knows."""
        return next((it for it in self.declared if it._start == self.start), None)

    def is_restoring(self) -> bool:
        """Whether objects are to be made again."""
        return self._terms.restore and not self.is_whole

    def number_of(self, handle: Handle | int) -> str:
        """The node's number of an object."""
        if isinstance(handle, int):
            return number_word("handle", handle)
        typed("handle", handle, Handle, "Handle or number")
        if handle._start not in (-1, self.start):
            raise Refused("NoHandle", f"{handle} of before the slot began anew")
        return str(handle.number)

    def keep(self, words: list[str]) -> None:
        """Keeps an indication of these words."""
        told = self._indication(words)
        if told is not None:
            self.told.append(told)

    def _indication(self, words: list[str]) -> Indication | None:
        """The indication of these words; None where they are none."""
        match words:
            case ["silent", handle]:
                return Silent(self._told_handle(handle))
            case ["alive", handle]:
                return Alive(self._told_handle(handle))
            case ["notified", handle, source, com_id, source_uri, dest_uri, data]:
                return Notified(self._told_handle(handle), source, int(com_id), uri_of(source_uri), uri_of(dest_uri),
                                bytes_of(data))
            case ["asked", handle, replier, session, source, com_id, source_uri, dest_uri, data]:
                made = self.note(Handle("replier", int(replier)))
                return Asked(self._told_handle(handle), made, uuid.UUID(session), source, int(com_id),
                             uri_of(source_uri), uri_of(dest_uri), bytes_of(data))
            case ["overrun", handle]:
                return Overrun(self._told_handle(handle))
            case ["replied", handle, source, kind, status, com_id, data]:
                return Replied(self._told_handle(handle), source, kind, int(status), int(com_id), bytes_of(data))
            case ["confirmed", handle, status]:
                return Confirmed(self.forget(self._told_handle(handle)), int(status))
            case ["closed", handle, reason]:
                return Closed(self.forget(self._told_handle(handle)), reason)
        return None

    def _told_handle(self, word: str) -> Handle:
        number = int(word)
        return self._handles.get(number) or Handle("unknown", number)
