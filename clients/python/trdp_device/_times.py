"""Cycles and time-outs: what holds for a telegram, its own or its interface's."""
from __future__ import annotations

from ._device import PD_TIMEOUT, Interface, Span, Telegram
from ._report import Report

SHORTEST = 1000
"""The shortest cycle and time-out of a node, in microseconds."""


class Times:
    """The times of an interface's telegrams, in microseconds. None is a time that the file does not say."""

    def __init__(self, interface: Interface, report: Report) -> None:
        self._process = interface.process
        self._message = interface.message
        self._report = report

    def cycle(self, telegram: Telegram) -> int | None:
        """The cycle of process data."""
        return self._time(telegram.process.cycle) if telegram.process else None

    def own_timeout(self, telegram: Telegram) -> int | None:
        """The time-out that a telegram of process data itself has."""
        return self._time(telegram.process.timeout) if telegram.process else None

    def timeout(self, telegram: Telegram) -> int:
        """The supervision time of a subscription."""
        own = telegram.process.timeout if telegram.process else None
        span = self._process.timeout if own is None else own
        time = self._time(span)
        if span is None or time is None:
            self._report.note(telegram.line, f"no time-out is given, and {PD_TIMEOUT} is the standard's")
            return PD_TIMEOUT
        if time == 0:
            self._report.note(span.line, f"{span.name} 0: data that stays away is never silent")
        return time

    def behaviour(self, telegram: Telegram) -> str:
        """What a time-out does to the value of a subscription."""
        own = telegram.process.behaviour if telegram.process else None
        return own or self._process.behaviour or "zero"

    def reply(self, telegram: Telegram) -> int | None:
        """How long a request waits for its answers."""
        own = telegram.message.reply if telegram.message else None
        return self._time(own or self._message.reply)

    def confirm(self, telegram: Telegram) -> int | None:
        """How long an answer waits to be confirmed."""
        own = telegram.message.confirm if telegram.message else None
        return self._time(own or self._message.confirm)

    def report_tcp(self, telegram: Telegram) -> None:
        """Reports that messages go over TCP there, on the line that says so."""
        own = telegram.message if telegram.message and telegram.message.protocol else self._message
        if own.protocol == "TCP":
            self._report.loss(own.line, "TCP: these messages go over UDP")

    def _time(self, span: Span | None) -> int | None:
        """A time that is long enough for a node."""
        if span is None or span.time == 0 or span.time >= SHORTEST:
            return span.time if span else None
        self._report.loss(span.line, f"{span.name} {span.time}: the shortest is {SHORTEST}")
        return SHORTEST
