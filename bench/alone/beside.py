"""Slots by themselves side by side, as many as a node has. None knows of another."""
from __future__ import annotations

from collections import Counter
from collections.abc import Callable

from .lines import Event
from .rules import LAST_MOMENT, Setting
from .settings import Settings
from .slot import Slot
from .telegrams import fault_of, read
from .texts import Pair

SLOTS_MAX = 16


class Beside:
    """The slots of a node, each by itself, and the lines of each event, slots rising."""

    def __init__(self, settings: Settings, seen: Counter[str] | None = None) -> None:
        self.settings = settings
        self.seen: Counter[str] = Counter() if seen is None else seen
        self.now, self.topo = 0, (0, 0)
        self.led: set[int] = set()
        self.slots: list[Slot] = []
        for quotas in settings.quotas:
            self.open(quotas)

    def open(self, quotas: tuple[int, ...]) -> None:
        """A slot is opened, with the moment, the counts and the roles of now."""
        setting = Setting(self.settings, self.seen)
        setting.now, setting.topo, setting.led = self.now, self.topo, set(self.led)
        self.slots.append(Slot(quotas, setting))

    def fault(self, event: Event) -> str | None:
        """Why the node takes no notice of an event; None where it does."""
        if event.slot is not None:
            return None if event.slot < len(self.slots) else "NoSlot"
        if event.word == "moment":
            now = event.values[0]
            return "Past" if now < self.now else "TooLate" if now > LAST_MOMENT else None
        if event.word == "role" and event.values[0] == 0:
            return "NoGroup"
        if event.word == "addslot" and len(self.slots) == SLOTS_MAX:
            return "SlotsFull"
        return None

    def step(self, event: Event) -> list[str]:
        """The lines that an event gives."""
        if fault := self.fault(event):
            return [f"fault {fault}"]
        if event.slot is not None:
            return self.numbered(event.slot, self.slots[event.slot].call(event.word, event.values))
        lines: list[str] = getattr(self, event.word)(*event.values)
        return lines

    def numbered(self, number: int, lines: list[str]) -> list[str]:
        return [f"{number} {line}" for line in lines]

    def each(self, does: Callable[[Slot], list[str]]) -> list[str]:
        """The lines of all slots, of what each gives."""
        return [line for number, slot in enumerate(self.slots) for line in self.numbered(number, does(slot))]

    def moment(self, now: int) -> list[str]:
        self.now = now
        return self.each(lambda slot: slot.moment(now))

    def topology(self, etb: int, op_trn: int) -> list[str]:
        self.topo = (etb, op_trn)
        return self.each(lambda slot: slot.topology(etb, op_trn))

    def role(self, group: int, leader: bool) -> list[str]:
        (self.led.add if leader else self.led.discard)(group)
        return self.each(lambda slot: slot.role(group, leader))

    def addslot(self, *quotas: int) -> list[str]:
        self.open(quotas)
        return [f"{len(self.slots) - 1} opened"]

    def datagram(self, protocol: str, source: Pair, destination: Pair, datagram: bytes) -> list[str]:
        if fault := fault_of(protocol, datagram):
            self.seen[f"{protocol} {fault}"] += 1
            return []
        telegram = read(protocol, datagram)
        self.seen[f"came {telegram.kind}"] += 1
        return self.each(lambda slot: slot.telegram(telegram, source, destination))

    def pd(self, source: Pair, destination: Pair, datagram: bytes) -> list[str]:
        return self.datagram("pd", source, destination, datagram)

    def md(self, source: Pair, destination: Pair, datagram: bytes) -> list[str]:
        return self.datagram("md", source, destination, datagram)
