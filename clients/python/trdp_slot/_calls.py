"""The four kinds of call."""
from __future__ import annotations

from collections.abc import Sequence

from ._asking import Asking
from ._exchange import Exchange
from ._faults import _Ended, Refused
from ._indications import DECLARED, Handle
from ._objects import Objects
from ._restoring import Restoring
from ._terms import Terms
from ._words import number_word, typed

# The calls of an object that may be made a second time, though the first one took effect.
REPEATED = ("put", "get")


class Calls:
    """Makes calls: one that opens an object, acts on one, ends one, or is of none. Each is made once more where the
    slot has restarted before it took effect."""

    def __init__(self, terms: Terms, objects: Objects, exchange: Exchange, asking: Asking,
                 restoring: Restoring) -> None:
        self._terms = terms
        self._objects = objects
        self._exchange = exchange
        self._asking = asking
        self._restoring = restoring

    def open(self, kind: str, verb: str, words: Sequence[str], tries: int, dataset: int = 0) -> Handle:
        """Makes an object."""
        line = " ".join([verb, *words])
        handle = Handle(kind, 0, dataset, line)
        is_declared = kind in DECLARED
        self._exchange.data_of(line)
        self._restoring.prepare()
        try:
            # Where its number isn't new, it is the first one of a daemon that was started again: it stays where no
            # other one is to be made again, and else the reset before that ends it.
            is_made = self._restoring.make(handle, tries) or self._objects.is_whole
        except _Ended as end:
            # An object is gone with its connection, but a request that was sent isn't.
            if end.is_taken and not is_declared:
                raise
            is_made = False
        if not is_made:
            self._restoring.prepare()
            self._restoring.make(handle, tries)
        if is_declared:
            self._objects.declared.append(handle)
        return handle

    def call(self, words: Sequence[str], tries: int) -> None:
        """Makes a call that is of no object; once more where the connection had ended before it."""
        self._exchange.data_of(" ".join(words))
        self._restoring.prepare()
        try:
            self._asking.ask(words, "done", tries)
        except _Ended as end:
            if end.is_taken:
                raise
            self._restoring.prepare()
            self._asking.ask(words, "done", tries)

    def act(self, verb: str, handle: Handle | int, words: Sequence[str], tries: int,
            answer: str = "done") -> list[str]:
        """Makes a call of an object; once more where the slot has restarted and the object is made again."""
        objects = self._objects
        number = number_word("handle", handle) if isinstance(handle, int) else str(
            typed("handle", handle, Handle, "Handle or number").number)
        self._exchange.data_of(" ".join([verb, number, *words]))
        number_word("tries", tries, 1)
        self._restoring.prepare()
        try:
            return self._asking.ask([verb, objects.number_of(handle), *words], answer, tries)
        except Refused as refusal:
            if refusal.name != "NoHandle" or handle not in objects.declared or not objects.is_there(handle):
                raise
            objects.void()
            if not self._terms.restore:
                raise
        except _Ended as end:
            if end.is_taken and verb not in REPEATED:
                raise
        self._restoring.prepare()
        return self._asking.ask([verb, objects.number_of(handle), *words], answer, tries)

    def end(self, verb: str, handle: Handle | int, tries: int | None) -> None:
        """Ends an object."""
        objects = self._objects
        if isinstance(handle, Handle) and handle in objects.declared and handle._start != objects.start:
            # Of a slot that has restarted. From here on it isn't made again.
            objects.forget(handle)
            return
        number = objects.number_of(handle)
        times = self._terms.tries_of(tries)
        self._restoring.prepare()
        try:
            self._asking.ask([verb, number], "done", times)
        except _Ended:
            # It ended with the connection.
            objects.forget(handle)
        except Refused as refusal:
            self._end_refused(handle, refusal)
        else:
            objects.forget(handle)

    def _end_refused(self, handle: Handle | int, refusal: Refused) -> None:
        """The end of an object was refused. Where an earlier try ended it, a later one finds no handle."""
        if refusal.name != "NoHandle":
            raise refusal
        if refusal.tries == 1 and handle not in self._objects.declared:
            raise refusal
        self._objects.forget(handle)
        if refusal.tries == 1:
            # No earlier try ended it, so the slot has restarted.
            self._objects.void()
            if not self._terms.restore:
                raise refusal
            self._restoring.prepare()
