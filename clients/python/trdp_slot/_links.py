"""The two kinds of control port: a UDP port and a control socket."""
from __future__ import annotations

import re
import socket
import sys

from ._indications import Lost
from ._limits import LINE_MOST, U32_MOST
from ._lines import line_of

# What comes at a control port: a line, or that some were lost.
Came = str | Lost
SO_RXQ_OVFL = 40  # by which the system says with a datagram how many were dropped so far, for lack of room
LOST_LINE = re.compile("lost ([1-9][0-9]{0,18})")


class Port:
    """A UDP control port, by a socket that takes its datagrams alone."""

    is_path = False
    is_over = False
    is_behind = False
    has_line = False

    def __init__(self, place: tuple[str, int]) -> None:
        """Raises OSError with the place."""
        self.is_nobody = False  # whether the system said that no one is there
        self._dropped = 0
        self._socket = socket.socket(socket.AF_INET, socket.SOCK_DGRAM)
        try:
            self._socket.setsockopt(socket.SOL_SOCKET, SO_RXQ_OVFL, 1)
            self._socket.connect(place)
        except OSError as fault:
            self._socket.close()
            raise OSError(fault.errno, fault.strerror, f"{place[0]}:{place[1]}") from None

    def fileno(self) -> int:
        return self._socket.fileno()

    def close(self) -> None:
        self._socket.close()

    def begin(self) -> None:
        """Forgets what the system said of the datagrams so far."""
        self._socket.getsockopt(socket.SOL_SOCKET, socket.SO_ERROR)
        self.is_nobody = False

    def send(self, line: bytes) -> bool:
        """Sends a line. Answers True: the system takes it at once."""
        for _ in range(2):
            try:
                self._socket.send(line)
                break
            except ConnectionRefusedError:
                # Said of what was sent before, to a port that no one had. Then nothing was sent now.
                self.is_nobody = True
        return True

    def flush(self) -> bool:
        """Nothing waits here."""
        return True

    def take(self) -> list[Came]:
        """What came first, and before it how much was lost; nothing where none is there."""
        try:
            data, extra, _, _ = self._socket.recvmsg(65536, 64, socket.MSG_DONTWAIT)
        except ConnectionRefusedError:
            self.is_nobody = True
            return []
        except BlockingIOError:
            return []
        came: list[Came] = []
        for level, kind, value in extra:
            if (level, kind) == (socket.SOL_SOCKET, SO_RXQ_OVFL):
                dropped = int.from_bytes(value[:4], sys.byteorder)
                if lost := (dropped - self._dropped) & U32_MOST:
                    came.append(Lost(lost))
                self._dropped = dropped
        return [*came, line_of(data)]


class Path:
    """A connection to a control socket. Nothing here waits for the other side."""

    is_path = True
    is_nobody = False

    def __init__(self, path: str) -> None:
        """Raises OSError."""
        self.is_over = False  # whether the other side has ended it, and all whole lines are taken
        self.is_first = True  # whether no line was taken
        self._has_end = False  # whether nothing more comes
        self._came = bytearray()
        self._unsent = bytearray()
        self._socket = socket.socket(socket.AF_UNIX, socket.SOCK_STREAM)
        try:
            self._socket.setblocking(False)
            self._socket.connect(path)
        except BaseException:
            self._socket.close()
            raise

    def fileno(self) -> int:
        return self._socket.fileno()

    def close(self) -> None:
        self._socket.close()

    def begin(self) -> None:
        """There is nothing to forget."""

    @property
    def is_behind(self) -> bool:
        """Whether the other side hasn't taken all lines."""
        return bool(self._unsent)

    @property
    def has_line(self) -> bool:
        """Whether something can be taken without a wait."""
        return self._has_end or b"\n" in self._came

    def send(self, line: bytes) -> bool:
        """Sends a line, as soon as the other side takes it. Answers False where the connection has ended before."""
        self._unsent += line + b"\n"
        return self.flush()

    def flush(self) -> bool:
        """Sends what waits. Answers False where the connection has ended."""
        try:
            while self._unsent:
                del self._unsent[:self._socket.send(self._unsent, socket.MSG_NOSIGNAL)]
        except BlockingIOError:
            pass
        except (BrokenPipeError, ConnectionResetError):
            # What the other side said before it ended is there to be read.
            self._unsent.clear()
            return False
        return True

    def take(self) -> list[Came]:
        """What came first; nothing where no whole line is there."""
        end = self._came.find(b"\n")
        if end < 0:
            self._read()
            end = self._came.find(b"\n")
        if end < 0 and len(self._came) > LINE_MOST:
            # As no trdpd says. What follows can't be read any more.
            end = LINE_MOST
            self._has_end = True
        if end < 0:
            # A last line without its end is none.
            self.is_over = self._has_end
            return []
        line = line_of(bytes(self._came[:end]))
        del self._came[:end + 1]
        lost = LOST_LINE.fullmatch(line)
        return [Lost(int(lost[1])) if lost else line]

    def _read(self) -> None:
        try:
            data = self._socket.recv(1 << 18)
        except BlockingIOError:
            return
        except ConnectionResetError:
            # So the system ends one that said what no one read.
            data = b""
        self._came += data
        self._has_end = self._has_end or not data


Link = Port | Path
