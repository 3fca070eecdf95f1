"""Objects of process data: publishers, subscriptions, requesters."""
from __future__ import annotations

from typing import Any

from .rules import Setting, counts_match, passes
from .telegrams import Data, write_pd
from .texts import Pair, hex_text, place_text

# How far behind the latest telegram another one is stale.
WINDOW = 16


def sent(place: Pair, data: Data) -> str:
    return f"send pd {place_text(place)} {write_pd(data).hex()}"


class Publisher:
    kind = "publisher"

    def __init__(self, handle: int, setting: Setting, com_id: int, dataset: int, cycle: int, group: int, etb: int,
                 op_trn: int, to: Pair) -> None:
        self.handle, self.com_id, self.dataset, self.cycle = handle, com_id, dataset, cycle
        self.group, self.topo, self.to = group, (etb, op_trn), to
        self.due = setting.now + cycle if cycle else None
        self.value: bytes | None = None
        self.counter = 0

    def silence(self, setting: Setting) -> str | None:
        """Why it may not send; None where it may."""
        if self.value is None:
            return "no value"
        if self.group != 0 and self.group not in setting.led:
            return "not led"
        return None if counts_match(self.topo, setting.topo) else "other counts"

    def send(self, setting: Setting, kind: str, place: Pair) -> list[str]:
        """The line of a telegram, if one is sent."""
        silence = self.silence(setting)
        setting.note(f"{kind} {silence or 'sent'}")
        if silence or self.value is None:
            return []
        data = Data(kind, self.com_id, self.value, self.counter, self.topo)
        self.counter = (self.counter + 1) % 2**32
        return [sent(place, data)]

    def fire(self, setting: Setting) -> list[str]:
        assert self.due is not None
        missed = (setting.now - self.due) // self.cycle
        setting.note("cycles missed" if missed else "cycle on time")
        self.due += (missed + 1) * self.cycle
        return self.send(setting, "Pd", self.to)

    def hears(self, setting: Setting, telegram: Any, source: Pair, destination: Pair) -> bool:
        if telegram.kind != "Pr" or (telegram.reply_com_id or telegram.com_id) != self.com_id:
            return False
        if counts_match(self.topo, telegram.topo):
            return True
        setting.note("publisher: other counts")
        return False

    def take(self, setting: Setting, telegram: Data, source: Pair) -> list[str]:
        place = (telegram.reply_ip, setting.pd_port) if telegram.reply_ip else source
        return self.send(setting, "Pp", place)

    def put(self, setting: Setting, value: bytes) -> list[str]:
        self.value = value
        return ["done"]


class Subscription:
    kind = "subscription"

    def __init__(self, handle: int, setting: Setting, com_id: int, dataset: int, low: int, high: int, dest: int,
                 etb: int, op_trn: int, time: int, zero: bool) -> None:
        self.handle, self.com_id, self.dataset, self.topo = handle, com_id, dataset, (etb, op_trn)
        self.source, self.dest, self.time, self.zero = (low, high), dest, time, zero
        self.due = setting.now + time if time else None
        self.state, self.counter = "Never", 0
        self.latest: tuple[int, str, int] | None = None
        self.value = bytes(setting.datasets.zero_size(dataset))

    def fire(self, setting: Setting) -> list[str]:
        self.due, self.state, self.latest = None, "Silent", None
        if self.zero:
            size = setting.datasets.zero_size(self.dataset) if self.dataset else len(self.value)
            self.value = bytes(size)
        return [f"silent {self.handle}"]

    def hears(self, setting: Setting, telegram: Any, source: Pair, destination: Pair) -> bool:
        if telegram.kind not in ("Pd", "Pp") or telegram.com_id != self.com_id:
            return False
        return passes(self, setting, telegram, source, destination)

    def is_stale(self, telegram: Data, source: Pair) -> bool:
        if self.latest is None or self.latest[:2] != (source[0], telegram.kind):
            return False
        return (self.latest[2] - telegram.counter) % 2**32 < WINDOW

    def take(self, setting: Setting, telegram: Data, source: Pair) -> list[str]:
        if not setting.datasets.fits(self.dataset, telegram.payload):
            setting.note("no value of the dataset")
            return []
        if self.is_stale(telegram, source):
            setting.note("stale")
            return []
        setting.note(f"{telegram.kind} taken")
        was_silent = self.state == "Silent"
        self.value, self.counter, self.state = telegram.payload, telegram.counter, "Valid"
        self.latest = (source[0], telegram.kind, telegram.counter)
        self.due = setting.now + self.time if self.time else None
        return [f"alive {self.handle}"] if was_silent else []

    def get(self, setting: Setting) -> list[str]:
        return [f"value {self.state} {self.counter} {hex_text(self.value)}"]


class Requester:
    kind = "requester"
    due = None

    def __init__(self, handle: int, setting: Setting, com_id: int, reply_com_id: int, reply_ip: int, etb: int,
                 op_trn: int, to: Pair) -> None:
        self.handle, self.com_id, self.topo, self.to = handle, com_id, (etb, op_trn), to
        self.reply_com_id, self.reply_ip, self.counter = reply_com_id, reply_ip, 0

    def hears(self, setting: Setting, telegram: Any, source: Pair, destination: Pair) -> bool:
        return False

    def pull(self, setting: Setting) -> list[str]:
        data = Data("Pr", self.com_id, b"", self.counter, self.topo, self.reply_com_id, self.reply_ip)
        self.counter = (self.counter + 1) % 2**32
        return ["done", sent(self.to, data)]
