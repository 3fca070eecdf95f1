#!/usr/bin/env python3
"""The application of a door controller: it says how the doors are, and leads or follows.

    doors.py CONFIG CONTROLS 1|2

Both controllers have the doors' status, and the one that leads sends it. Who leads is decided here, and nowhere in the
node: the second controller follows what the first one sends, leads as soon as it hears nothing for the time of three
telegrams, and follows again with the next one that it hears. So the first one always leads, and needs to know of
nothing.
"""
from __future__ import annotations

import pathlib
import sys

sys.path.insert(0, str(pathlib.Path(__file__).resolve().parents[2] / "clients/python"))
import train  # noqa: E402
from train import CYCLE_US, DATASET, say  # noqa: E402
from trdp_slot import Alive, Asked, Handle, Operator, Silent, Slot  # noqa: E402


class Doors:
    """A door controller, which leads or follows."""

    def __init__(self, slot: Slot, operator: Operator, number: int) -> None:
        self.slot = slot
        self.operator = operator
        self.number = number
        self.leads = False
        self.obstacles = 0  # it rises in each cycle here, so that telegrams can be told apart
        places = [(train.STATUS, f"{train.SEEN}:{train.PD}"), (train.RECORD, f"{train.DIAGNOSIS}:{train.PD}")]
        self.sent = [slot.publish(com_id, place, dataset=DATASET, cycle_us=CYCLE_US, group=train.REDUNDANT)
                     for com_id, place in places]
        slot.listen(train.WHO, dest=train.ALL)
        slot.on(Asked, self.answer)
        self.first: Handle | None = None
        if number == 1:
            self.lead(True)
        else:
            self.follow_the_first()

    def follow_the_first(self) -> None:
        """Subscribes to what the first controller says."""
        self.first = self.slot.subscribe(train.STATUS, dataset=DATASET, low=train.DOORS[0], high=train.DOORS[0],
                                         dest=train.SEEN, time_us=train.TAKEOVER_US, behaviour="keep")
        self.slot.on(Silent, lambda told: self.lead(True))
        self.slot.on(Alive, lambda told: self.lead(False))

    def lead(self, leads: bool) -> None:
        """Leads from now on, or follows. The node keeps to what its operator says."""
        self.operator.role(train.REDUNDANT, leads)
        self.leads = leads
        say("leads" if leads else "follows")

    def answer(self, told: Asked) -> None:
        """Says who is here."""
        self.slot.reply(told.replier, train.HERE, f"doors {self.number}".encode())

    def run(self) -> None:
        """Goes on until it is ended."""
        say("ready")
        while True:
            if self.leads or self.first is None:
                self.obstacles = (self.obstacles + 1) % 65536
            elif (heard := self.slot.get(self.first)).state == "Valid":
                # So a takeover continues the count of the other controller.
                self.obstacles = heard.value[-1]
            for handle in self.sent:
                self.slot.put(handle, [self.number, 4, [0, 0, 0, 2], self.obstacles])
            self.slot.run(CYCLE_US)


def main(config: str, controls: str, number: str) -> None:
    with Slot(config, 0, controls=controls, answer_us=train.PATIENCE_US) as slot:
        operator = Operator(f"{controls}/18100", answer_us=train.PATIENCE_US)
        Doors(slot, operator, int(number)).run()


if __name__ == "__main__":
    main(*sys.argv[1:])
