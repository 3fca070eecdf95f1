"""What a program waits at for indications."""
from __future__ import annotations

import select
import socket

from ._links import Link


class Bell:
    """The descriptor that can be read from where something may be there. It has the sockets, and a bell that rings as
    long as an indication waits."""

    def __init__(self) -> None:
        self.waiting = 0  # how many threads wait at it
        self._is_closed = False
        self._epoll = select.epoll()
        self._bell, self._rope = socket.socketpair()
        self._rings = self._is_watched_out = False
        self._epoll.register(self._bell, select.EPOLLIN)

    def fileno(self) -> int:
        return self._epoll.fileno()

    def watch(self, link: Link) -> None:
        """Has the link, too."""
        self._epoll.register(link, select.EPOLLIN)
        self._is_watched_out = False

    def leave(self, link: Link) -> None:
        """Has the link no more."""
        self._epoll.unregister(link)

    def show(self, has_told: bool, link: Link | None) -> None:
        """Says whether something is there, and waits for what the other side of the link is to take."""
        if self._is_closed:
            return
        is_there = has_told or link is not None and link.has_line
        if is_there != self._rings:
            self._rings = is_there
            if is_there:
                self._rope.send(b"!")
            else:
                self._bell.recv(1)
        if link is not None and link.is_behind != self._is_watched_out:
            self._is_watched_out = link.is_behind
            self._epoll.modify(link, select.EPOLLIN | (select.EPOLLOUT if self._is_watched_out else 0))

    def wait(self, seconds: float) -> None:
        """Waits until something is there, that many seconds at most."""
        self._epoll.poll(seconds)

    def close(self) -> None:
        """Wakes the threads that wait, and closes it once none does."""
        self._is_closed = True
        if self.waiting and not self._rings:
            # From now on the bell rings. Its end would not do that while a child of `fork` has the rope.
            self._rope.send(b"!")
        self.close_if_left()

    def close_if_left(self) -> None:
        """Closes what threads wait at, if the client is closed and none waits any more."""
        if self._is_closed and self.waiting == 0:
            self._epoll.close()
            self._bell.close()
            self._rope.close()
