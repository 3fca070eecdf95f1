"""The client in a program of asyncio."""
from __future__ import annotations

import asyncio
import concurrent.futures
import functools
import math
import time
from collections.abc import Callable, Coroutine
from typing import Any, Concatenate, ParamSpec, TypeVar

from ._indications import Indication
from ._slot import Slot
from ._times import WAIT_MOST, end_of

_Words = ParamSpec("_Words")
_Answer = TypeVar("_Answer")


def _awaited(call: Callable[Concatenate[Slot, _Words], _Answer]) -> Callable[
        Concatenate[AsyncSlot, _Words], Coroutine[Any, Any, _Answer]]:
    """The same call, to be awaited."""
    @functools.wraps(call)
    async def begin(self: AsyncSlot, /, *words: _Words.args, **named: _Words.kwargs) -> _Answer:
        return await self._call(functools.partial(call, self.slot, *words, **named))
    return begin


class AsyncSlot:
    """The same application in a program of asyncio: `async with AsyncSlot(Slot("node.toml", 0)) as doors`. Its calls
    are awaited, `await doors.put(status, value)`, and its indications come by `async for told in doors`, in one task.

    **Calls** are made one after another, in the order in which they were begun, each in a thread, so that the others
    of the program go on meanwhile. One that is cancelled before its turn isn't made. One that is cancelled later goes
    on to its end, and its answer is dropped: a cancelled `publish` may leave a publisher. No indication gets lost
    where a task that waits for it is cancelled.

    **The lease** is kept in calls, and while a task waits for an indication. Its program's loop does that, and no
    thread: where the loop hangs, nothing is said.

    While it is used, no one else calls `slot`.
    """

    def __init__(self, slot: Slot) -> None:
        """The application of that client, which this one closes."""
        self.slot = slot
        self._worker = concurrent.futures.ThreadPoolExecutor(1, "trdp_slot")
        self._turn = asyncio.Lock()  # held while a call is under way
        self._hearing = asyncio.Lock()  # held while a task waits for an indication
        self._heard = asyncio.Event()  # that something came for it
        self._is_closed = False

    async def close(self) -> None:
        """Closes the client, once the call that is under way is over. A task that waits for an indication learns that
        none comes any more, and later calls raise AlreadyClosed. A second `close` does nothing."""
        self._is_closed = True
        self._heard.set()
        async with self._hearing, self._turn:
            self.slot.close()
            self._worker.shutdown(wait=False)

    async def __aenter__(self) -> AsyncSlot:
        return self

    async def __aexit__(self, *_: object) -> None:
        await self.close()

    def __aiter__(self) -> AsyncSlot:
        return self

    async def __anext__(self) -> Indication:
        told = await self.next_indication()
        if told is None:
            raise StopAsyncIteration
        return told

    async def next_indication(self, time_us: int | None = None) -> Indication | None:
        """As `Slot.next_indication`, but that others of the program go on meanwhile. None, too, once it is closed."""
        end = end_of(time_us)
        async with self._hearing:
            while not self._is_closed:
                async with self._turn:
                    # No one has the client now, so that this waits for nothing.
                    told = self.slot._next_told(may_wait=False)
                now = time.monotonic()
                if told is not None or end is not None and now >= end:
                    return told
                due = self.slot._due()
                if due <= now:
                    await self._call(functools.partial(self.slot._attend, True))
                else:
                    await self._can_hear(min(due, math.inf if end is None else end) - now)
        return None

    async def _can_hear(self, seconds: float) -> None:
        """Waits until something came, that many seconds at most."""
        loop = asyncio.get_running_loop()
        loop.add_reader(self.slot.fileno(), self._heard.set)
        try:
            await asyncio.wait_for(self._heard.wait(), min(WAIT_MOST, seconds))
        except TimeoutError:
            pass
        finally:
            loop.remove_reader(self.slot.fileno())
            self._heard.clear()

    async def _call(self, call: Callable[[], _Answer]) -> _Answer:
        """Makes a call once it has its turn, which is over when the call is, also where it is cancelled before."""
        await self._turn.acquire()
        try:
            self.slot._must_be_open()
            made = asyncio.get_running_loop().run_in_executor(self._worker, call)
        except BaseException:
            self._turn.release()
            raise
        made.add_done_callback(self._is_over)
        return await asyncio.shield(made)

    def _is_over(self, made: asyncio.Future[Any]) -> None:
        """A call is over. What it raises is dropped where its task was cancelled."""
        self._turn.release()
        if not made.cancelled():
            made.exception()

    publish = _awaited(Slot.publish)
    put = _awaited(Slot.put)
    unpublish = _awaited(Slot.unpublish)
    subscribe = _awaited(Slot.subscribe)
    get = _awaited(Slot.get)
    unsubscribe = _awaited(Slot.unsubscribe)
    openpull = _awaited(Slot.openpull)
    pull = _awaited(Slot.pull)
    closepull = _awaited(Slot.closepull)
    listen = _awaited(Slot.listen)
    unlisten = _awaited(Slot.unlisten)
    notify = _awaited(Slot.notify)
    request = _awaited(Slot.request)
    reply = _awaited(Slot.reply)
    query = _awaited(Slot.query)
    replyerror = _awaited(Slot.replyerror)
    confirm = _awaited(Slot.confirm)
    abort = _awaited(Slot.abort)
    declare = _awaited(Slot.declare)
    reset = _awaited(Slot.reset)
    begin = _awaited(Slot.begin)
    sync = _awaited(Slot.sync)
    check = _awaited(Slot.check)
