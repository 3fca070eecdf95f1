"""How a program hears indications, and notices a restart of its slot."""
from __future__ import annotations

import contextlib
import math
import time
from collections.abc import Callable, Iterator
from typing import Any, get_args

from ._client import Client, one_at_a_time
from ._datasets import Datasets
from ._faults import NoAnswer, Refused, _Ended
from ._indications import Indication
from ._shown import shown
from ._terms import Terms
from ._times import WAIT_MOST, end_of

# Seconds after which `run` looks whether the slot still has its objects, where it heard nothing; and after which it
# tries again what it couldn't make again.
LOOK, AGAIN = 1.0, 0.1


class Hearing(Client):
    """Indications, as they come, and what is due while none does."""

    def __init__(self, terms: Terms, datasets: Datasets, reset: bool) -> None:
        super().__init__(terms, datasets, reset)
        self._callbacks: dict[type, list[Callable[[Any], object]]] = {}

    def indications(self, time_us: int | None = None) -> Iterator[Indication]:
        """The indications, as they come. Ends when none has come for `time_us`; None is for ever. What came during
        calls waits here. Over UDP the node sends them to where the latest line came from: where this client has made no
        call yet, `begin` sends one."""
        while (told := self.next_indication(time_us)) is not None:
            yield told

    def next_indication(self, time_us: int | None = None) -> Indication | None:
        """The next indication; None where none has come within `time_us`. 0 doesn't wait, and so doesn't look whether
        the slot has restarted, nor make objects again. Else it may take longer by the time of a call that does so."""
        end = end_of(time_us)
        while True:
            told = self._next_told(may_wait=time_us != 0)
            if told is not None:
                return told
            now = time.monotonic()
            if end is not None and now >= end:
                return None
            self._wait_for_news(min(WAIT_MOST, max(0.0, min(math.inf if end is None else end, self._due()) - now)))

    def on(self, kind: type[Any], callback: Callable[[Any], object]) -> None:
        """Has `run` call `callback` with each indication of that kind, as `slot.on(Silent, print)`. Several
        callbacks of a kind are called in the order in which they were given. Each may make calls."""
        self._must_be_open()
        if kind not in get_args(Indication):
            raise TypeError(f"kind is {shown(kind)}, and no kind of indication, as Silent")
        if not callable(callback):
            raise TypeError(f"callback is {shown(callback)}, and can't be called")
        self._callbacks.setdefault(kind, []).append(callback)

    def run(self, time_us: int | None = None) -> None:
        """Calls the callbacks of the indications that come within `time_us`, in this thread; None is for ever. Those
        without one are dropped. What a callback raises ends it: then the same indication is handed out again by the
        next `run`, to all its callbacks. Other threads may make calls meanwhile."""
        end = end_of(time_us)
        left = time_us
        while (told := self.next_indication(left)) is not None:
            try:
                for callback in self._callbacks.get(type(told), []):
                    callback(told)
            except BaseException:
                self._hand_back(told)
                raise
            if end is not None:
                left = max(0, int((end - time.monotonic()) * 1_000_000))
                if left == 0 and not self._objects.told:
                    return

    @one_at_a_time
    def sync(self) -> None:
        """Returns once the daemon has taken all that was sent before; answers that were under way are dropped, and
        indications kept. Raises TimeoutError where no one is there."""
        self._asking.sync()

    @one_at_a_time
    def check(self) -> bool:
        """Whether the slot still has all objects of this client. Returns False once if the slot has restarted since
        `check` last returned, no matter which call or `run` has noticed that, and True from then on. Several restarts
        between two calls of `check` make one False, so a program without `restore` makes its objects again once.

        Makes one call, which changes nothing. With `restore`, all objects are there when it returns. Raises
        TimeoutError if no answer comes; then it hasn't reported a restart, and the next `check` does."""
        is_there = False
        if self._objects.is_whole:
            is_there = self._has_objects(self.tries)
        else:
            self._restoring.restore()
        is_told, self._objects.is_restart_untold = not self._objects.is_restart_untold, False
        return is_there and is_told

    @one_at_a_time
    def _next_told(self, may_wait: bool) -> Indication | None:
        """The next indication, if one is there, or comes by what is due now."""
        self._take_what_is_there()
        if not self._objects.told and self._due() <= time.monotonic():
            self._attend(may_wait)
        return self._objects.told.popleft() if self._objects.told else None

    def _hand_back(self, told: Indication) -> None:
        """Has an indication be the next one again."""
        with self._lock:
            self._objects.told.appendleft(told)
            self._show()

    def _wait_for_news(self, seconds: float) -> None:
        """Waits until something came, that many seconds at most; without the lock, so that other threads make calls
        meanwhile."""
        with self._lock:
            self._must_be_open()
            self._bell.waiting += 1
        try:
            self._bell.wait(seconds)
        finally:
            with self._lock:
                self._bell.waiting -= 1
                self._bell.close_if_left()

    def _take_what_is_there(self) -> None:
        """Takes what has come, until there is an indication."""
        with contextlib.suppress(_Ended):
            while not self._objects.told and self._sockets.links() and self._exchange.take_next(0.0) is not None:
                pass

    def _due(self) -> float:
        """When `run` has something to do though nothing comes."""
        if not self._objects.is_whole:
            return min(self._exchange.beat_due(), self._times.tried + AGAIN)
        if self._objects.known() is not None:
            return min(self._exchange.beat_due(), max(self._times.heard, self._times.tried) + LOOK)
        return self._exchange.beat_due()

    @one_at_a_time
    def _attend(self, may_wait: bool) -> None:
        """Does what is due though nothing comes: keeps the lease; looks whether the slot has restarted; makes objects
        again. What can't be done is tried again later."""
        with contextlib.suppress(NoAnswer, PermissionError):
            self._exchange.beat()
            if not may_wait or self._due() > time.monotonic():
                return
            self._sockets.is_patient = False
            try:
                if self._objects.is_whole:
                    self._has_objects(1)
                else:
                    self._restoring.restore()
            finally:
                self._sockets.is_patient = True
                self._times.tried = time.monotonic()

    def _has_objects(self, tries: int) -> bool:
        """Whether the slot still has the objects of this client, by one of them. With `restore` they are made again."""
        known = self._objects.known()
        try:
            if known is None:
                self.sync()
            else:
                self._asking.ask(["get", str(known.number)], "value", tries)
            return True
        except Refused as refusal:
            if refusal.name != "NoHandle":
                return True
            self._objects.void()
        except _Ended:
            # The end of the connection is noticed by that.
            pass
        if not self._objects.is_whole:
            self._restoring.restore()
        return False
