#!/usr/bin/env python3
"""A client of a control port of trdpd: sends lines, and prints all that comes back, within a time or until it ends.

    client.py ADDRESS PORT SECONDS LINE..
    client.py PATH SECONDS LINE..
    client.py --stay ADDRESS PORT [LINE..]
    client.py --stay PATH [LINE..]
    client.py 127.0.0.1 18000 0.5 'publish 2101 0 100000 0 0 0 127.0.0.2:17224' 'put 1 0400'
    client.py --stay /run/trdpd/18000

A word with a / is the path of a control socket; else the port is a UDP port. With --stay each line that is typed is
sent too, until the input or the connection ends. For a second after that it prints what still comes.

Over UDP the node sends an application's indications (silent, asked ..) to the sender of its latest line. So a client
that follows a value keeps one socket open, as this one does. A line that is empty or begins with # has no answer, but
has the indications come here. At a control socket the connection is the application: when this client ends, the node
resets the slot.

The exit status is 0 where something came back, 1 where nothing did or something went wrong, 2 for words that mean
nothing. Over UDP it uses clients/python/trdp_slot, which has a method for each call, and finds the answer to each call:
docs/CLIENTS.md.
"""
from __future__ import annotations

import argparse
import contextlib
import functools
import math
import os
import pathlib
import re
import select
import socket
import sys
import time
from collections.abc import Callable

sys.path.insert(0, str(pathlib.Path(__file__).resolve().parents[2] / "clients/python"))
import trdp_words  # noqa: E402
from trdp_slot import DATAGRAM_MOST, Slot  # noqa: E402

LINE_MOST = 140_000
"""The most bytes of a line over a control socket, with its end."""
PATH_MOST = 107
"""The most bytes of a socket's path."""
TICK_SECONDS = 0.02
"""How soon a line that is typed is read."""
LAST_SECONDS = 1.0
"""How long it waits after the end of its input for what still comes."""
USAGE = """client.py ADDRESS PORT SECONDS LINE..
       client.py PATH SECONDS LINE..
       client.py --stay ADDRESS PORT [LINE..]
       client.py --stay PATH [LINE..]"""


class Datagrams(Slot):
    """A control port over UDP: each line is a datagram, sent at once, and the other side never ends it."""

    line_most = DATAGRAM_MOST
    is_over = False
    is_behind = False

    def end_lines(self) -> None:
        """Does nothing: over UDP the other side is not informed that no line follows."""


class Connection:
    """A connection to a control socket. No call waits for the other side to read a line. Of what came it keeps no more
    than a line."""

    line_most = LINE_MOST - 1

    def __init__(self, path: str) -> None:
        """Connects. Raises OSError with the path."""
        self.path = path
        self.is_over = False  # whether the other side has ended it, and all whole lines are read
        self._unsent = bytearray()
        self._is_last = False  # whether no line follows what is unsent
        self._came = bytearray()
        self._socket = socket.socket(socket.AF_UNIX, socket.SOCK_STREAM)
        self._socket.setblocking(False)
        try:
            self._socket.connect(path)
        except OSError as fault:
            self._socket.close()
            raise OSError(fault.errno, fault.strerror, path) from None

    def close(self) -> None:
        """Closes it. What is unsent is lost."""
        self._socket.close()

    @property
    def is_behind(self) -> bool:
        """Whether a line, or a part of one, is still unsent."""
        return bool(self._unsent)

    def send_line(self, line: str) -> None:
        """Sends a line, as soon as there is room for it."""
        self._unsent += bytes_of(line) + b"\n"
        self._write()

    def end_lines(self) -> None:
        """Ends the lines after what is unsent. What the other side sends is still read."""
        self._is_last = True
        self._write()

    def read_line(self, time_us: int) -> str | None:
        """The next line that comes, without its end; None where none came within `time_us`, or none can come any more.
        A byte that is no printable character of ASCII is shown as one, as `\\xff`. Raises ValueError where a line has
        no end."""
        end = time.monotonic() + time_us / 1_000_000
        while (line := self._next_line()) is None and not self.is_over:
            left = end - time.monotonic()
            if left <= 0:
                break
            self._wait(left)
        return line

    # -- inside ----------------------------------------------------------------

    def _next_line(self) -> str | None:
        """The first line that came, if it is whole."""
        end = self._came.find(b"\n", 0, LINE_MOST)
        if end < 0 and len(self._came) >= LINE_MOST:
            raise ValueError(f"{self.path}: a line of more than {LINE_MOST} bytes came")
        if end < 0:
            return None
        line = bytes(self._came[:end])
        del self._came[:end + 1]
        return re.sub(rb"[^ -~]", lambda found: b"\\x%02x" % found[0][0], line).decode("ascii")

    def _wait(self, seconds: float) -> None:
        """Waits, for a thousand seconds at most, until something came or can be sent, and does both."""
        poll = select.poll()
        poll.register(self._socket, select.POLLIN | (select.POLLOUT if self.is_behind else 0))
        if poll.poll(math.ceil(min(seconds, 1000) * 1000)):
            self._write()
            self._read()

    def _write(self) -> None:
        try:
            if self._unsent:
                del self._unsent[:self._socket.send(self._unsent)]
            if self._is_last and not self._unsent:
                self._socket.shutdown(socket.SHUT_WR)
                self._is_last = False
        except BlockingIOError:
            pass
        except (BrokenPipeError, ConnectionResetError):
            # What the other side sent before it ended can still be read.
            self._unsent.clear()

    def _read(self) -> None:
        try:
            data = self._socket.recv(65536)
        except BlockingIOError:
            return
        except ConnectionResetError:
            data = b""
        self._came += data
        self.is_over = not data


class Typed:
    """The lines of standard input, each of at most that many bytes."""

    def __init__(self, most: int) -> None:
        self._most = most
        self._input = -1 if sys.stdin is None else sys.stdin.fileno()
        self._came = b""
        self.is_over = self._input < 0

    def next_lines(self) -> list[str]:
        """Those that can be read now; at the end of the input also a last one without its end. Raises ValueError where
        one is too long, and OSError."""
        if self.is_over:
            return []
        poll = select.poll()
        poll.register(self._input, select.POLLIN)
        if not poll.poll(0):
            return []
        data = os.read(self._input, 65536)
        self.is_over = not data
        *lines, self._came = (self._came + data).split(b"\n")
        if self.is_over and self._came:
            lines.append(self._came)
        if any(len(it) > self._most for it in [*lines, self._came]):
            raise ValueError(f"a line has more than {self._most} bytes")
        return [it.decode("utf-8", "surrogateescape") for it in lines]


def bytes_of(line: str) -> bytes:
    """The bytes of a line as it was typed."""
    return line.encode("utf-8", "surrogateescape")


def line_of(most: int) -> Callable[[str], str]:
    """Reads a line of at most that many bytes."""
    def read(text: str) -> str:
        if len(bytes_of(text)) > most:
            raise argparse.ArgumentTypeError(f"a line has more than {most} bytes")
        return text
    return read


def path_of(text: str) -> str:
    """Reads the path of a control socket."""
    if "/" not in text or "\0" in text:
        raise argparse.ArgumentTypeError(f"{trdp_words.shown(text)} is no path, as /run/trdpd/18000")
    if len(os.fsencode(text)) > PATH_MOST:
        raise argparse.ArgumentTypeError(f"a path has more than {PATH_MOST} bytes")
    return text


@functools.cache
def parser(has_path: bool, stays: bool) -> trdp_words.Words:
    """All words of the command line: with a path or an address, with --stay or without."""
    words = trdp_words.Words(prog="client.py", usage=USAGE, allow_abbrev=False,
                             description="Sends lines, and prints all that comes back.")
    words.add_argument("--stay", action="store_true", help="go on, without SECONDS, and send what is typed, too")
    if has_path:
        words.add_argument("path", type=path_of, help="the path of a control socket, as /run/trdpd/18000")
    else:
        words.add_argument("address", type=trdp_words.address, help="the control port's address, as 127.0.0.1; or, in "
                           "place of address and port, the PATH of a control socket, as /run/trdpd/18000")
        words.add_argument("port", type=trdp_words.number(1, trdp_words.PORT_MOST), help="the control port, as 18000")
    if not stays:
        words.add_argument("seconds", type=trdp_words.seconds, help="how long to wait for what comes back")
    most = LINE_MOST - 1 if has_path else DATAGRAM_MOST
    words.add_argument("line", type=line_of(most), nargs="*" if stays else "+", help="a line, as 'get 1'")
    return words


def asked_by(words: list[str]) -> argparse.Namespace:
    """What the words of the command line ask for. Ends the program where they mean nothing."""
    begin = words.index("--") + 1 if "--" in words else len(words)
    # argparse would ignore a second `--` where a word is required.
    words = words[:begin] + [it for it in words[begin:] if it != "--"]
    first = next((it for it in words if not it.startswith("-")), "")
    return parser("/" in first, "--stay" in words[:begin]).parse_args(words)


def open_port(asked: argparse.Namespace) -> Datagrams | Connection:
    """The control port that is asked for. Raises OSError with its address or path."""
    return Connection(asked.path) if "path" in asked else Datagrams(asked.address, asked.port, reset=False)


def talk(port: Datagrams | Connection, lines: list[str], end: float, typed: Typed | None) -> bool:
    """Sends the lines, and then those that are typed, if any are. Prints what comes back until that time, the end of
    the connection, or a while after the end of what is typed. Returns whether something came."""
    for line in lines:
        port.send_line(line)
    heard = is_last = False
    while (left := end - time.monotonic()) > 0:
        text = port.read_line(int(min(left, TICK_SECONDS if typed else left) * 1_000_000))
        if text is not None:
            print(text, flush=True)
            heard = True
        elif port.is_over:
            if not is_last:
                print("client.py: the connection was ended", file=sys.stderr)
            break
        if typed and not port.is_behind:
            for line in typed.next_lines():
                port.send_line(line)
            if typed.is_over:
                typed, is_last = None, True
                port.end_lines()
                end = time.monotonic() + LAST_SECONDS
    return heard


def main(words: list[str]) -> int:
    """The exit status."""
    asked = asked_by(words)
    try:
        with contextlib.closing(open_port(asked)) as port:
            typed = Typed(port.line_most) if asked.stay else None
            end = math.inf if asked.stay else time.monotonic() + asked.seconds
            return 0 if talk(port, asked.line, end, typed) else 1
    except (OSError, ValueError) as fault:
        # For example where no node is at the control port.
        print(f"client.py: {trdp_words.sentence(fault)}", file=sys.stderr)
        trdp_words.drop_output()
        return 1
    except KeyboardInterrupt:
        return 1


if __name__ == "__main__":
    sys.exit(main(sys.argv[1:]))
