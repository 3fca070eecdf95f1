"""What all calls of a slot's client stand on."""
from __future__ import annotations

import contextlib
import functools
import os
import threading
from collections.abc import Callable
from typing import Any, TypeVar, cast

from ._asking import Asking
from ._bell import Bell
from ._calls import Calls
from ._datasets import Datasets
from ._exchange import Exchange
from ._faults import AlreadyClosed, DoesNotFit
from ._objects import Objects
from ._records import is_record
from ._restoring import Restoring
from ._shown import shown
from ._sockets import Sockets
from ._terms import Terms
from ._times import Times
from ._words import whole

_Method = TypeVar("_Method", bound=Callable[..., Any])


def one_at_a_time(method: _Method) -> _Method:
    """A method of Slot that other threads' calls wait for, and that leaves `fileno` as it has to be."""
    @functools.wraps(method)
    def call(self: Client, *words: Any, **named: Any) -> Any:
        with self._lock:
            self._must_be_open()
            try:
                return method(self, *words, **named)
            finally:
                self._show()
    return cast(_Method, call)


class Client:
    """A client of a slot, without its calls: it is open until it is closed, and has one thread at a time.

    Its parts know those before them, and none behind them: the terms and the times, the objects, the bell, the sockets,
    the exchange of lines, the asking for answers, the restoring of objects, and the calls."""

    def __init__(self, terms: Terms, datasets: Datasets, reset: bool) -> None:
        """Raises OSError where there is no socket for the port."""
        self.datasets = datasets
        self._terms = terms
        self._times = Times(terms.lease_us)
        self._lock = threading.RLock()
        self._process = os.getpid()  # which makes the calls
        self._is_closed = False
        self._bell = Bell()
        self._objects = Objects(terms, self._times)
        self._sockets = Sockets(terms, self._objects, self._bell)
        self._exchange = Exchange(terms, self._times, self._objects, self._sockets)
        self._asking = Asking(terms, self._exchange, reset)
        self._restoring = Restoring(terms, self._objects, self._asking)
        self._calls = Calls(terms, self._objects, self._exchange, self._asking, self._restoring)
        try:
            if terms.path is None:
                self._sockets.link = self._sockets.open()
        except OSError:
            self.close()
            raise
        self._sockets.known = self._sockets.link

    @property
    def answer_us(self) -> int:
        """How long an answer is waited for."""
        return self._terms.answer_us

    @answer_us.setter
    def answer_us(self, answer_us: int) -> None:
        self._terms.answer_us = answer_us

    @property
    def tries(self) -> int:
        """How often a call is sent that may be made twice."""
        return self._terms.tries

    @tries.setter
    def tries(self, tries: int) -> None:
        self._terms.tries = tries

    @property
    def restore(self) -> bool:
        """Whether the objects are made again after a restart of the slot."""
        return self._terms.restore

    @restore.setter
    def restore(self, restore: bool) -> None:
        self._terms.restore = restore

    def close(self) -> None:
        """Closes the socket or the connection, once the call of another thread is over. Over UDP the objects stay as
        they are, up to the daemon's lease. The end of a connection resets the slot, unless another process keeps it
        open. Each later call raises AlreadyClosed. A thread that is in `run`, or waits for an indication, gets it too.
        A second `close` does nothing."""
        lock: contextlib.AbstractContextManager[Any] = self._lock
        if os.getpid() != self._process:
            # A thread may have the lock, or wait, that this child of `fork` doesn't have.
            lock, self._bell.waiting = contextlib.nullcontext(), 0
        with lock:
            if self._is_closed:
                return
            self._is_closed = True
            for link in self._sockets.links():
                link.close()
            self._bell.close()

    def _must_be_open(self) -> None:
        """Raises AlreadyClosed after `close`."""
        if self._is_closed:
            raise AlreadyClosed(self._terms.place_text())

    def fileno(self) -> int:
        """A descriptor that can be read from where something may be there for `next_indication(0)`, until that answers
        None; it stays the same. It is for `select` and the like alone. A program that waits at it calls
        `next_indication(0)` now and then also where nothing is there, so that the lease is kept, and `check`, so that a
        restart is noticed."""
        self._must_be_open()
        return self._bell.fileno()

    def _show(self) -> None:
        """Has `fileno` say whether something is there."""
        self._bell.show(bool(self._objects.told), self._sockets.link)

    def _payload(self, dataset: int, value: Any, most: int) -> bytes:
        """The bytes of a value, or the bytes that it is. An instance of a dataclass knows its dataset."""
        if isinstance(value, (bytes, bytearray, memoryview)):
            return bytes(value)
        if dataset == 0 and is_record(value):
            dataset = type(value).trdp_dataset
        if whole("dataset", dataset, 0) == 0 or dataset not in self.datasets:
            raise DoesNotFit(f"dataset {dataset}: {shown(value)} is no bytes, and the dataset isn't known here")
        return self.datasets.pack(dataset, value, most)
