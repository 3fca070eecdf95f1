"""The socket or the connection of a client, and the one before it."""
from __future__ import annotations

import math
import select
import time
from collections.abc import Sequence

from ._bell import Bell
from ._faults import NoAnswer, Nobody
from ._links import Link, Path, Port
from ._objects import Objects
from ._terms import Terms

CONNECT = 0.01  # seconds between two tries to connect


class Sockets:
    """The links to the control port: how they are made, left and waited at."""

    def __init__(self, terms: Terms, objects: Objects, bell: Bell) -> None:
        self._terms = terms
        self._objects = objects
        self._bell = bell
        self.link: Link | None = None
        self.known: Link | None = None  # at which the node answered last: indications may come there still
        self.unknown_due = 0  # until the port is known: how many lines sent at this link weren't answered as unknown
        self.is_patient = True  # whether a connection is tried again for as long as an answer is waited for

    def open(self) -> Link:
        """Makes a socket that takes datagrams of the control port alone, or a connection. Raises OSError with the
        place."""
        link = self._connected()
        self._bell.watch(link)
        self.unknown_due = 0
        return link

    def _connected(self) -> Link:
        """The same. A path at which no one listens, or to which this program has no right, is tried again while objects
        are to be made again: a daemon that is started again makes its file, and the file's group is given a moment
        later."""
        if self._terms.path is None:
            assert self._terms.place is not None
            return Port(self._terms.place)
        is_restoring = self._objects.is_restoring()
        end = time.monotonic() + self._terms.patience if self.is_patient else 0.0
        while True:
            try:
                return Path(self._terms.path)
            except OSError as fault:
                is_later = isinstance(fault, BlockingIOError) or is_restoring and isinstance(
                    fault, (FileNotFoundError, ConnectionRefusedError, PermissionError))
                if not is_later or time.monotonic() >= end:
                    raise self._not_there(fault) from None
            time.sleep(CONNECT)

    def _not_there(self, fault: OSError) -> OSError:
        """What is said of a path to which there is no connection."""
        if isinstance(fault, (FileNotFoundError, ConnectionRefusedError)):
            return Nobody(f"nobody is at {self._terms.path}: {fault.strerror}")
        if isinstance(fault, BlockingIOError):
            return NoAnswer(f"nobody takes a connection at {self._terms.path}")
        return OSError(fault.errno, fault.strerror, self._terms.path)

    def drop(self, link: Link) -> None:
        """Closes a link."""
        self._bell.leave(link)
        link.close()

    def links(self) -> list[Link]:
        """The links at which something may come. The earlier one is first: the answer to a mark at the other one says
        that nothing comes at it any more, and has what is there taken."""
        return [it for it in dict.fromkeys([self.known, self.link]) if it is not None]

    @staticmethod
    def wait(links: Sequence[Link], seconds: float) -> list[Link]:
        """The links at which something is there, as soon as there is one. What waits to be sent is sent meanwhile."""
        if found := [it for it in links if it.has_line]:
            return found
        poll = select.poll()
        for link in links:
            poll.register(link, select.POLLIN | (select.POLLOUT if link.is_behind else 0))
        ready = {number for number, _ in poll.poll(math.ceil(seconds * 1000))}
        for link in links:
            if link.is_behind:
                link.flush()
        return [it for it in links if it.fileno() in ready]
