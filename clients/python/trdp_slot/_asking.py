"""How a call gets its answer."""
from __future__ import annotations

import time
from collections.abc import Sequence

from ._exchange import Exchange
from ._faults import _Ended, NoAnswer, Nobody, OtherSlot, Refused, WrongAnswer
from ._lines import read_line_or_none
from ._shown import cut, shown
from ._terms import Terms
from ._words import number_word, whole

# The first call at a port. It changes nothing, because no object has the handle 0, and its refusal names the slot.
QUESTION = ("get", "0")


class Asking:
    """Sends a call, a mark after it, and finds the answer between two marks; and does so again where none came."""

    def __init__(self, terms: Terms, exchange: Exchange, is_reset_due: bool) -> None:
        self._terms = terms
        self._exchange = exchange
        self.is_reset_due = is_reset_due  # whether the slot has yet to be reset for this client

    def ask(self, words: Sequence[str], answer: str, tries: int) -> list[str]:
        """Makes a call. Answers the words of its answer, of which `answer` is the first."""
        line = " ".join(words)
        number_word("tries", tries, 1)
        exchange = self._exchange
        is_taken = False
        try:
            self.settle()
            for number in range(1, tries + 1):
                exchange.begin_try()
                exchange.send(line)
                is_taken = True
                exchange.send_mark()
                found = self._answer(answer)
                if found is None:
                    if self._is_last_try():
                        break
                    self.settle()
                elif found[0] == "refused":
                    raise Refused(found[1], line, number)
                else:
                    return found
        except _Ended as end:
            if exchange.left_out is not None and read_line_or_none(exchange.left_out) is None:
                raise WrongAnswer(self._terms.place_text(), exchange.left_out) from None
            end.is_taken = is_taken
            end.args = (f"the connection at {self._terms.place_text()} has ended: {cut(line)}",)
            raise
        raise self._silence(tries, line)

    def _is_last_try(self) -> bool:
        """Whether a call without an answer isn't sent again: no one is there, or the connection has yet to answer."""
        return self._exchange.is_nobody or self._terms.path is not None and bool(self._exchange.marks.awaited)

    def settle(self) -> None:
        """Sees to it that no answer to an earlier call comes any more."""
        is_over = False
        while not is_over:
            try:
                if not self._reads_to_mark():
                    if self._terms.path is not None:
                        # A new connection would be a new application. What waits is answered in order; another
                        # mark goes after it, as this one may have been lost.
                        self._exchange.marks.end = time.monotonic() + self._terms.patience
                        if self._exchange.marks.has_free:
                            self._exchange.send_mark()
                        raise NoAnswer(f"{self._terms.place_text()} has yet to answer an earlier call")
                    self._exchange.renew()
                is_over = True
            except (OtherSlot, WrongAnswer):
                # What an earlier call was answered, which was reported by then.
                continue

    def _reads_to_mark(self) -> bool:
        """Reads up to the answer to the latest mark. Answers whether it came in its time."""
        while self._exchange.marks.awaited:
            if self._exchange.take_next(self._exchange.marks.end) is None:
                return False
        return True

    def _answer(self, answer: str) -> list[str] | None:
        """The first answer of that form, or the refusal, before the mark; None where none came."""
        exchange = self._exchange
        while exchange.marks.awaited and time.monotonic() < exchange.marks.end:
            answers = exchange.take_next(exchange.marks.end)
            if answers is None:
                return None
            for words in answers:
                if words[0] in (answer, "refused"):
                    return words
                exchange.left_out = exchange.left_out or f"{self._terms.number} {' '.join(words)}"
        return None

    def _silence(self, tries: int, line: str) -> NoAnswer | WrongAnswer:
        """What is said where no answer came: no one is there, somebody else is, or it isn't known."""
        left_out = self._exchange.left_out
        if left_out is not None and read_line_or_none(left_out) is None:
            return WrongAnswer(self._terms.place_text(), left_out)
        call = f": {cut(line)}" if line else ""
        if self._exchange.is_nobody:
            return Nobody(f"nobody is at {self._terms.place_text()}{call}")
        heard = "" if left_out is None else f", but {shown(left_out)}"
        return NoAnswer(f"no answer{heard}, at {tries} tries of {self._terms.answer_us} microseconds{call}")

    def sync(self) -> None:
        """Returns once the daemon has taken all that was sent before."""
        for _ in range(self._terms.tries):
            self.settle()
            self._exchange.begin_try()
            self._exchange.send_mark()
            if self._reads_to_mark():
                return
            if self._exchange.is_nobody:
                break
        raise self._silence(self._terms.tries, "")

    def make_sure(self) -> None:
        """Asks which slot the port belongs to, by a line that changes nothing, until that was answered once."""
        if self._exchange.is_sure:
            return
        try:
            try:
                self.ask(QUESTION, "value", self._terms.tries)
            except _Ended:
                # Nothing was changed, so it asks again at the next connection.
                self.ask(QUESTION, "value", self._terms.tries)
        except Refused:
            pass
        except (OtherSlot, WrongAnswer):
            self._exchange.leave()
            raise
        self._exchange.is_sure = True

    def reset_slot(self, tries: int) -> None:
        """Resets the slot. Returns once the answer to the mark after the last `reset` has come, so that none
        that was sent is taken later."""
        self.settle()
        for number in range(1, whole("tries", tries, 1) + 1):
            self._exchange.begin_try()
            self._exchange.send("reset")
            self._exchange.send_mark()
            found = self._answer("done")
            if found is not None and found[0] == "refused":
                raise Refused(found[1], "reset", number)
            if self._reads_to_mark() and found is not None:
                self.is_reset_due = False
                return
            if self._is_last_try():
                break
            self.settle()
        raise self._silence(tries, "reset")
