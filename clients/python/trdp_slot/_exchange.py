"""The lines that a client says and hears."""
from __future__ import annotations

import contextlib
import math
import time
from typing import NoReturn

from ._faults import Busy, _Ended, OperatorsPort, OtherSlot, SlotError, WrongAnswer
from ._indications import Lost
from ._limits import DATAGRAM_MOST, LINE_MOST
from ._lines import ANSWERS, read_line
from ._links import Came, Link, Path
from ._marks import LINE_FAULT, UNKNOWN, Marks
from ._objects import Objects
from ._sockets import Sockets
from ._terms import Terms
from ._times import Times, left
from ._words import typed


class Exchange:
    """Says lines, and sorts what is heard: answers, the answers to marks, and indications. Keeps the lease
    meanwhile."""

    def __init__(self, terms: Terms, times: Times, objects: Objects, sockets: Sockets) -> None:
        self._terms = terms
        self._times = times
        self._objects = objects
        self._sockets = sockets
        self.marks = Marks()
        self.is_sure = False  # whether the port has said that it is this slot's
        self.is_nobody = False  # whether the system said of the latest try that no one is at the port
        self.left_out: str | None = None  # the first line of the latest call that was no answer to it

    # -- what is said ---------------------------------------------------------

    def data_of(self, line: str) -> bytes:
        """The bytes of a line. Raises ValueError where it can't be sent."""
        data = typed("line", line, str, "text").encode("utf-8", "surrogateescape")
        if self._terms.path is not None and len(data) >= LINE_MOST:
            raise ValueError(f"the line has {len(data)} bytes, and a control socket takes {LINE_MOST - 1}")
        if self._terms.path is None and len(data) > DATAGRAM_MOST:
            raise ValueError(f"the line has {len(data)} bytes, and a datagram carries {DATAGRAM_MOST}")
        return data

    def send(self, line: str) -> None:
        """Sends a line. Raises _Ended, or Busy, where the connection has ended before."""
        data = self.data_of(line)
        if self._sockets.link is None:
            self._sockets.link = self._sockets.known = self._sockets.open()
        self._times.said = time.monotonic()
        self._sockets.unknown_due += line[:1] not in ("", "#")
        if not self._sockets.link.send(data):
            # What it said before it ended is read first, as it may be `busy`.
            while self.take_next(0.0) is not None:
                pass
            self._end_link()

    def send_mark(self) -> None:
        """Sends the next mark whose answer isn't awaited already."""
        line = self.marks.choose(self.is_sure)
        self.marks.end = time.monotonic() + self._terms.answer_seconds
        self.send(line)

    def beat_due(self) -> float:
        """When a remark is due, so that the lease goes on."""
        return math.inf if self._sockets.link is None else self._times.beat_due()

    def beat(self) -> None:
        """Says a remark where one is due."""
        if self.beat_due() <= time.monotonic():
            self._times.notice_end_of_lease()
            self.send("#")

    # -- what ends ------------------------------------------------------------

    def begin_try(self) -> None:
        """Forgets what the system and the port said of earlier tries."""
        if self._sockets.link is not None:
            self._sockets.link.begin()
        self.is_nobody = False
        self.left_out = None

    def renew(self) -> None:
        """Goes on with a new socket: the answers that are under way go to the old one."""
        sockets = self._sockets
        assert self._terms.path is None and sockets.link is not None
        # Where no one was there, no one hears a remark. Linux tells that so often a second, and then no more.
        is_nobody = sockets.link.is_nobody
        if sockets.link is not sockets.known:
            sockets.drop(sockets.link)
        sockets.link = sockets.open()
        self.marks.awaited.clear()
        if not is_nobody:
            self.send("#")

    def leave(self) -> None:
        """Leaves a port that isn't this slot's: its own application can connect there, and what it still says is not
        heard here."""
        sockets = self._sockets
        for link in sockets.links():
            sockets.drop(link)
        sockets.link = sockets.known = None
        self.marks.awaited.clear()
        # No remark goes there for the lease: over UDP it would have that slot's indications come here.
        self._times.said = None
        if self._terms.path is None:
            sockets.link = sockets.known = sockets.open()

    def _end_link(self, is_busy: bool = False) -> NoReturn:
        """Takes notice of the end of the connection."""
        sockets = self._sockets
        assert sockets.link is not None
        sockets.drop(sockets.link)
        sockets.link = sockets.known = None
        self.marks.awaited.clear()
        if is_busy:
            raise Busy(self._terms.place_text())
        self._objects.void()
        raise _Ended(f"the connection at {self._terms.place_text()} has ended")

    # -- what is heard --------------------------------------------------------

    def _lines(self, end: float | None) -> list[tuple[Link, Came]]:
        """What comes first before the moment `end` of `time.monotonic`, at each link; none where nothing does, or the
        system says that no one is at the port. What is there already is read even then. The lease is kept
        meanwhile. Raises _Ended where the connection has ended."""
        sockets = self._sockets
        while sockets.link is not None:
            seconds = left(min(math.inf if end is None else end, self.beat_due()))
            ready = sockets.wait(sockets.links(), 0.0 if sockets.link.is_nobody else seconds)
            lines = [(link, it) for link in ready for it in link.take()]
            if lines:
                self._times.heard = time.monotonic()
                return lines
            if sockets.link.is_over:
                self._end_link()
            self.is_nobody = self.is_nobody or sockets.link.is_nobody
            if sockets.link.is_nobody or not ready and end is not None and time.monotonic() >= end:
                break
            self.beat()
        return []

    def take_next(self, end: float | None) -> list[list[str]] | None:
        """Takes what comes first: notes a mark, keeps indications. Answers the words of the answers among it; None
        where nothing came. Raises OtherSlot and WrongAnswer, once the rest of it is taken, OperatorsPort, and Busy."""
        lines = self._lines(end)
        if not lines:
            return None
        answers = []
        fault: SlotError | None = None
        for link, line in lines:
            if isinstance(line, Lost):
                self._note_lost(line)
                continue
            if link.is_path and self._is_busy(link, line):
                self._end_link(is_busy=True)
            if link is self._sockets.link and line in self.marks.awaited:
                self._note_mark(line)
                continue
            if link is self._sockets.link and self._is_operators(line):
                self.leave()
                raise OperatorsPort(self._terms.place_text())
            try:
                words = self.keep(line)
            except (OtherSlot, WrongAnswer) as told:
                fault = told if link is self._sockets.link else fault
                continue
            if words and link is self._sockets.link:
                answers.append(words)
        if fault:
            raise fault
        return answers

    @staticmethod
    def _is_busy(link: Link, line: str) -> bool:
        """Whether the first line of a connection says that there is another one."""
        assert isinstance(link, Path)
        is_first, link.is_first = link.is_first, False
        return is_first and line == "busy"

    def _is_operators(self, line: str) -> bool:
        """Whether this line shows that the port is the operator's, which knows none of the lines that were sent. A
        slot's port knows the marks that are sent before the question is answered."""
        if self.is_sure or line != UNKNOWN:
            return False
        self._sockets.unknown_due -= 1
        return self._sockets.unknown_due == 0 and bool(self.marks.awaited)

    def _note_lost(self, lost: Lost) -> None:
        """Reports what was lost. The answer to a mark may be among it: then another mark goes after it."""
        told = self._objects.told
        if told and isinstance(before := told[-1], Lost):
            told[-1] = Lost(before.texts + lost.texts)
        else:
            told.append(lost)
        if self._terms.path is not None and self.marks.awaited and self.marks.has_free:
            self.send_mark()

    def _note_mark(self, answer: str) -> None:
        """The answer to a mark came. With it the node answers at this link, and nothing more goes to another one."""
        self.marks.note(answer)
        sockets = self._sockets
        if sockets.known is not None and sockets.known is not sockets.link:
            while came := sockets.known.take():
                for line in came:
                    if isinstance(line, Lost):
                        self._note_lost(line)
                        continue
                    # OtherSlot and WrongAnswer are as of a daemon before this one.
                    with contextlib.suppress(OtherSlot, WrongAnswer):
                        self.keep(line)
            sockets.drop(sockets.known)
            sockets.known = sockets.link

    def keep(self, line: str) -> list[str]:
        """Keeps an indication, and answers the words of an answer; none of any other line. Raises OtherSlot, and
        WrongAnswer where a line begins as one of these, and isn't one."""
        try:
            said = read_line(line)
        except ValueError:
            raise WrongAnswer(self._terms.place_text(), line) from None
        if said is None:
            if not LINE_FAULT.fullmatch(line):
                self.left_out = self.left_out or line
            return []
        if self._terms.number is None:
            self._terms.number = said.slot
        elif said.slot != self._terms.number:
            raise OtherSlot(self._terms.place_text(), self._terms.number, line)
        if said.words[0] in ANSWERS:
            return said.words
        self._objects.keep(said.words)
        return []
