"""The operator of a node."""
from __future__ import annotations

import contextlib
import re
import socket
import time
from typing import NamedTuple, Self, cast

from ._faults import AlreadyClosed, Busy, NoAnswer, Nobody, Refused, WrongAnswer
from ._lines import line_of
from ._marks import UNKNOWN
from ._place import socket_path
from ._words import address_word, counts_words, number_word, whole


class Totals(NamedTuple):
    """What a daemon has counted since it began: datagrams that came, that were given to the system, and that it
    refused; takes at which it failed; and what was lost because there was no memory."""

    taken: int
    offered: int
    lost: int
    unread: int
    memory: int


class Kinds(NamedTuple):
    """A number for each kind of object."""

    publishers: int
    subscriptions: int
    requesters: int
    listeners: int
    callers: int
    repliers: int


class Usage(NamedTuple):
    """What a slot has and may have at most of each kind, and how many microseconds ago its latest line came; None
    where none has come, or none since its connection ended or its lease ran out."""

    slot: int
    objects: Kinds
    quotas: Kinds
    silent_us: int | None


_TOTALS = re.compile(" ".join(f"{name} ([0-9]+)" for name in Totals._fields))
_USAGE = re.compile("([0-9]+)" + " ([0-9]+)/([0-9]+)" * len(Kinds._fields) + " ([0-9]+|-)")


class Operator:
    """The operator of a node, at its operator's port: what concerns all slots. It can be used in a `with` block.

    Each line goes from a socket or a connection of its own, so that no answer is taken for that of another line. Each
    method raises Refused with the fault's name (NoGroup, SlotsFull), TimeoutError where no answer came (Nobody, at
    once, where no one is there), Busy where four other operators have the control socket, WrongAnswer where no trdpd
    answers, and AlreadyClosed after `close`."""

    def __init__(self, address: str, port: int | None = None, *, answer_us: int = 200_000, tries: int = 3) -> None:
        """The operator at that address and port, as 127.0.0.1 and 18100, or at the control socket of that path, as
        /run/trdpd/18100, without a port. `answer_us` is how long an answer is waited for, and `tries` how often a line
        is sent over UDP that may be sent twice; over a connection it is sent once, and waited for as long in all."""
        self.place: tuple[str, int] | str
        if port is None and isinstance(address, str) and "/" in address:
            folder, _, name = address.rpartition("/")
            self.place = socket_path("address", folder or "/", name)
        else:
            self.place = (address_word("address", address), whole("port", cast(int, port), 1, 0xFFFF))
        self.answer_us = whole("answer_us", answer_us, 1)
        self.tries = whole("tries", tries, 1)
        self._is_closed = False

    def close(self) -> None:
        """Ends the operator: later calls raise AlreadyClosed. Between two calls it has nothing open. A second `close`
        does nothing."""
        self._is_closed = True

    def __enter__(self) -> Self:
        return self

    def __exit__(self, *_: object) -> None:
        self.close()

    def topology(self, etb: int, op_trn: int) -> None:
        """The train's network has these topology counters from now on. A second try does no harm."""
        self._say(" ".join(["topology", *counts_words(etb, op_trn)]), self.tries)

    def role(self, group: int, is_leader: bool) -> None:
        """The node leads that redundancy group, 1 to 255, from now on, or follows in it. A second try does no harm."""
        word = "leader" if is_leader else "follower"
        self._say(f"role {number_word('group', group, 0, 255)} {word}", self.tries)

    def addslot(self, publishers: int = 0, subscriptions: int = 0, requesters: int = 0, listeners: int = 0,
                callers: int = 0, repliers: int = 0) -> None:
        """Opens the next slot, for that many objects of each kind, 0 to 256. It is sent once: a second try may open a
        second one."""
        quotas = [publishers, subscriptions, requesters, listeners, callers, repliers]
        self._say(" ".join(["addslot", *(number_word("quota", it, 0, 256) for it in quotas)]), 1)

    def totals(self) -> Totals:
        """What the daemon has counted since it began, this line with it."""
        return Totals(*(int(it) for it in self._told("totals", _TOTALS)[0]))

    def slots(self) -> list[Usage]:
        """What each slot has and may have, slots rising, and how long ago its latest line came."""
        usage = []
        for number, *words, age in self._told("slots", _USAGE):
            numbers = [int(it) for it in words]
            silent_us = None if age == "-" else int(age)
            usage.append(Usage(int(number), Kinds(*numbers[::2]), Kinds(*numbers[1::2]), silent_us))
        return usage

    def _told(self, line: str, form: re.Pattern[str]) -> list[tuple[str, ...]]:
        """The words of an answer whose lines all have that form. It changes nothing to ask again."""
        answer = self._answer(line, self.tries)
        told = [form.fullmatch(it) for it in answer.split("\n")]
        if None in told:
            raise self._wrong(line, answer)
        return [it.groups() for it in told if it]

    def _say(self, line: str, tries: int) -> None:
        """Has a line done."""
        answer = self._answer(line, tries)
        if answer != "ok":
            raise self._wrong(line, answer)

    def _wrong(self, line: str, answer: str) -> Exception:
        """What it is that a line has such an answer: a refusal, or none of trdpd."""
        refused = re.fullmatch("(?:line )?fault ([A-Z][A-Za-z0-9]*)", answer)
        if refused is None:
            return WrongAnswer(self._place_text(), answer)
        fault = Refused(refused[1], line)
        if answer == UNKNOWN:
            # The operator's port knows all lines that are sent here.
            fault.args = (f"{fault}: {self._place_text()} is a slot's port, and not the operator's",)
        return fault

    def _place_text(self) -> str:
        return self.place if isinstance(self.place, str) else f"{self.place[0]}:{self.place[1]}"

    def _answer(self, line: str, tries: int) -> str:
        """The answer to a line, without the end of its last line."""
        if self._is_closed:
            raise AlreadyClosed(self._place_text())
        if isinstance(self.place, str):
            return self._answer_of(self.place, line, tries)
        for _ in range(tries):
            with socket.socket(socket.AF_INET, socket.SOCK_DGRAM) as port:
                port.connect(self.place)
                port.settimeout(self.answer_us / 1_000_000)
                try:
                    port.send(line.encode())
                    return line_of(port.recv(65536))
                except ConnectionRefusedError:
                    raise Nobody(f"nobody is at {self._place_text()}: {line}") from None
                except TimeoutError:
                    pass
        raise NoAnswer(f"no answer, at {tries} tries of {self.answer_us} microseconds: {line}")

    def _answer_of(self, path: str, line: str, tries: int) -> str:
        """The same over a connection: the line is its last one, so that its end is that of the answer."""
        end = time.monotonic() + tries * self.answer_us / 1_000_000
        came = b""
        with socket.socket(socket.AF_UNIX, socket.SOCK_STREAM) as port:
            try:
                self._limit(port, end)
                port.connect(path)
                # What it says without being asked, as `busy`, is read though the line can't be sent.
                with contextlib.suppress(BrokenPipeError, ConnectionResetError):
                    port.sendall(f"{line}\n".encode(), socket.MSG_NOSIGNAL)
                    port.shutdown(socket.SHUT_WR)
                with contextlib.suppress(ConnectionResetError):
                    while data := self._read(port, end):
                        came += data
            except (FileNotFoundError, ConnectionRefusedError) as fault:
                raise Nobody(f"nobody is at {path}: {fault.strerror}: {line}") from None
            except (TimeoutError, BlockingIOError):
                raise NoAnswer(f"no answer in {tries} times {self.answer_us} microseconds: {line}") from None
            except OSError as fault:
                raise OSError(fault.errno, fault.strerror, path) from None
        if came == b"busy\n":
            raise Busy(path)
        if not came.endswith(b"\n"):
            raise NoAnswer(f"the connection at {path} has ended: {line}")
        return line_of(came)

    def _read(self, port: socket.socket, end: float) -> bytes:
        """What comes next before that moment; nothing at the end of the connection."""
        self._limit(port, end)
        return port.recv(65536)

    @staticmethod
    def _limit(port: socket.socket, end: float) -> None:
        """Has the socket wait until that moment at most."""
        port.settimeout(max(0.001, end - time.monotonic()))
