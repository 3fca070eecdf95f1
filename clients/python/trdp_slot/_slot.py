"""The client of a slot."""
from __future__ import annotations

import inspect
import os
import time
from typing import Self

from ._client import Client, one_at_a_time
from ._datasets import Datasets
from ._declaring import declare
from ._faults import Nobody
from ._hearing import Hearing
from ._indications import Handle, Lost
from ._limits import LEASE_MOST, SLOTS_MOST
from ._message_calls import MessageCalls
from ._place import socket_path, where_is
from ._process_calls import ProcessCalls
from ._tables import faults_of
from ._terms import Terms
from ._times import end_of, left
from ._words import typed, whole


class Slot(ProcessCalls, MessageCalls, Hearing):
    """The application of one slot of a node, at its control port: a UDP port or a control socket.

    It has one socket or connection for all, and at most one call is under way: a call of another thread waits until
    it is over. It isn't made for several clients of one slot: over UDP the node sends indications to where the latest
    line came from, and at a control socket a second one is `Busy`.

    **A clean start.** Before its first call the client asks which slot the port belongs to, by `get 0`, which changes
    no object: if it is another slot or the operator, the call raises OtherSlot or OperatorsPort. Then it sends `reset`,
    so that the slot has no object of an earlier program; no call is made before the answer to the mark after the last
    `reset` that was sent. `begin`, `sync`, `check` and `send_line` send neither. A client that only looks at the
    objects of another one has `reset=False`: `Slot.look`. Over UDP even the question has the indications of that slot
    come here, until the slot's own application sends its next line.

    **Answers.** An answer doesn't say to which call it is. So after each call goes a line that can't be read,
    whose fault marks the end of the call's answers: what comes between two marks is the answer. Over UDP, where one of
    them doesn't come in its time, the client goes on with a new socket, at which no earlier answer comes any more. So
    in a network that keeps the order, which the one within a machine does, an answer that was lost, late or doubled is
    never taken for that of another call. In one that doesn't, a doubled answer that falls after a mark can be
    taken for the next one of the same form. No network shows whether it was the call that got lost or its answer,
    nor that a call was brought twice. A connection keeps the order: no call is made there before
    the answer to the mark of the one before.

    **Tries.** Over UDP a call is sent again where no answer came within `answer_us`, `tries` times in all, and raises
    TimeoutError where none came at all. That is so for calls that may be made twice: `put`, `get`, `reset`, and those
    that end an object. All others are sent once, unless `tries` is given with the call, and each says what a second try
    may do. Where the system says that no one is there, no call is sent again. Over a connection the answer is waited
    for as long in all, and a call is sent again only where the node says that it dropped the answer.

    **A slot that has restarted** has no objects: the daemon was started again, the connection has ended, or the lease
    has run out. It is noticed by the end of the connection, or where the node refuses a handle as NoHandle that this
    client was given and hasn't ended, or gives one a second time. Then all earlier handles are void, and an indication
    `Restarted` says so. With `restore`, the publishers, with their latest values, subscriptions, requesters and
    listeners are made again under the same `Handle`, after a `reset`, and the call that noticed it is made again. As
    long as one of them isn't there, each call begins with making them all. `run`, `indications` and `next_indication`
    look once a second, where they hear nothing; `check` looks at once.

    **A lease** of the daemon is given as `lease_us`. Then the client says `#` whenever a third of it has passed since
    its latest line, where it waits: in calls, in `run` and in `indications`. No thread does that, so that a program
    that hangs says nothing.

    **Threads and processes.** Several threads may make calls, also while one is in `run` or in `indications`. `close`
    waits until the call of another thread is over; a thread in `run` or `indications` then gets AlreadyClosed. A child
    of `fork` has its parent's socket: it makes no calls, and closes its copy by `close`, which ends nothing of its
    parent's. As long as a child keeps a connection open, its parent's end doesn't end it. What a process becomes by
    `exec` doesn't have it.

    All calls raise Refused, TimeoutError where no answer came (Nobody, at once, where no one is at the port), Busy
    where another application has the control socket, OtherSlot where another slot answers, OperatorsPort where the
    operator's port does, WrongAnswer where no trdpd does, AlreadyClosed after `close`, ValueError or TypeError where an
    argument can't be in a line, and OSError where the system refuses, such as PermissionError at a control socket.
    """

    def __init__(self, config: str | os.PathLike[str], slot: int, /, *, controls: str | os.PathLike[str] | None = None,
                 datasets: Datasets | None = None, answer_us: int = 200_000, tries: int = 3, reset: bool = True,
                 restore: bool = False, lease_us: int | None = None, number: int | None = None,
                 named: bool = False) -> None:
        """A client of slot `slot` of the node with that configuration, at its UDP port, or at its control socket in the
        folder `controls`; or at that address and port, such as 127.0.0.1 and 18000; or at the control socket of that
        folder and port, such as /run/trdpd and 18000. A folder that comes first has a /.

        `datasets` are those by which values are packed; where it is None, those of the configuration, and without one
        none: then values are bytes. `answer_us` is how long an answer is waited for, and `tries` how often a call is
        sent that may be made twice. `lease_us` is the daemon's lease; None where it has none. `number` is the slot's
        number where no configuration says it; None takes the number that the first answer has. With `named`, values
        are returned by names, and else as the datasets have them, which is as lists unless they are made otherwise.
        Nothing is sent yet, and no connection made. Raises ConfigFault where the configuration isn't one, or the slot
        has no control port."""
        terms = Terms(None if number is None else whole("number", number, 0, SLOTS_MOST - 1),
                      whole("answer_us", answer_us, 1), whole("tries", tries, 1), restore,
                      None if lease_us is None else whole("lease_us", lease_us, 1, LEASE_MOST))
        with faults_of(config):
            where = where_is(config, slot, controls, number)
            terms.place = where.place
            if where.tables is not None:
                datasets = datasets or Datasets.from_tables(where.tables)
                terms.number = slot
        if where.folder is not None:
            terms.path = socket_path("controls", where.folder, where.port)
        known = Datasets({}) if datasets is None else typed("datasets", datasets, Datasets, "Datasets")
        super().__init__(terms, known.by_names() if named else known, reset)

    @classmethod
    def look(cls, config: str | os.PathLike[str], slot: int, /, *, datasets: Datasets | None = None,
             answer_us: int = 200_000, tries: int = 3, number: int | None = None, named: bool = False) -> Self:
        """A client that only looks at the objects of another one, over UDP: it sends no `reset`. After each of its
        calls, and of its question before them, the indications come to it, until the other one makes its next call. At
        a control socket no one can look beside the application; there `Operator.slots` says what a slot has."""
        return cls(config, slot, datasets=datasets, answer_us=answer_us, tries=tries, reset=False, number=number,
                   named=named)

    def __enter__(self) -> Slot:
        return self

    def __exit__(self, *_: object) -> None:
        self.close()

    @one_at_a_time
    def reset(self, *, tries: int | None = None) -> None:
        """Resets the slot: all its objects end at once, those of an earlier program too, and no handle is given out
        again. Nothing is sent to the network. A second try does no harm. Returns once the answer to the mark after the
        last one that was sent has come. From then on this client has no objects that a restart could have ended, so
        `check` no longer reports an earlier restart."""
        self._asking.make_sure()
        self._asking.reset_slot(self._terms.tries_of(tries))
        self._objects.forget_all()

    @one_at_a_time
    def declare(self, path: str | os.PathLike[str], *, tries: int = 1) -> dict[str, Handle]:
        """Makes the objects of a file, such as `trdp-import` writes, and returns them by their names. Its lines are
        `publish`, `subscribe`, `openpull` and `listen`, each with a remark `# NAME` right before it. With `restore`
        they are made again like any other object.

        Raises OSError, and ConfigFault if the file isn't such a one; then nothing is made. If the node refuses a call,
        those before it are ended, and Refused has its line. A second try may make a second object."""
        return declare(self._calls, path, tries)

    @one_at_a_time
    def begin(self) -> None:
        """Has the node send indications to this client from now on, by a remark, which has no answer; so over UDP it
        may get lost. Each call does the same."""
        self._exchange.send("#")

    @one_at_a_time
    def send_line(self, line: str) -> None:
        """Sends a line as it is, and waits for nothing. Its answer is read by `read_line`; don't mix this with
        calls."""
        self._exchange.send(line)

    def read_line(self, time_us: int) -> str | None:
        """The next line that comes, an answer or an indication, without its end; None where none came within
        `time_us`. Don't mix this with calls. Raises Nobody where the system knows that no one is at the control
        port, or the connection has ended."""
        end = end_of(time_us)
        while True:
            self._must_be_open()
            link = self._sockets.link
            if link is not None and (came := link.take()):
                return next(iter(it for it in came if isinstance(it, str)), f"lost {came[0].texts}"
                            if isinstance(came[0], Lost) else None)
            if link is None or link.is_nobody or link.is_over:
                if link is not None and not link.is_path:
                    link.begin()
                raise Nobody(f"nobody is at {self._terms.place_text()}")
            if end is not None and time.monotonic() >= end:
                return None
            self._sockets.wait([link], left(end))


# The classes that Slot is made of are no one's but its own: what is wrong with a call's arguments is said of Slot.
for _part in (ProcessCalls, MessageCalls, Hearing, Client):
    for _name, _member in vars(_part).items():
        if inspect.isfunction(_member):
            _member.__qualname__ = inspect.unwrap(_member).__qualname__ = f"Slot.{_name}"
