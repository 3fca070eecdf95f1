#!/usr/bin/env python3
"""The application of a display: it shows how the doors are, whichever controller says it.

    display.py CONFIG CONTROLS NAME
"""
from __future__ import annotations

import pathlib
import sys

sys.path.insert(0, str(pathlib.Path(__file__).resolve().parents[2] / "clients/python"))
import train  # noqa: E402
from train import DATASET, say  # noqa: E402
from trdp_slot import Alive, Asked, Silent, Slot, Value  # noqa: E402

LOOK_US = 20_000
"""How long it rests between two looks: a tenth of the cycle, so that it sees each telegram."""


def main(config: str, controls: str, name: str) -> None:
    with Slot(config, 0, controls=controls, answer_us=train.PATIENCE_US) as slot:
        status = slot.subscribe(train.STATUS, dataset=DATASET, low=train.DOORS[0], high=train.DOORS[1],
                                dest=train.SEEN, time_us=train.SUPERVISION_US, behaviour="keep")
        slot.listen(train.WHO, dest=train.ALL)
        slot.on(Silent, lambda told: say("silent"))
        slot.on(Alive, lambda told: say("alive"))
        slot.on(Asked, lambda told: slot.reply(told.replier, train.HERE, name.encode()))
        say("ready")
        before: Value | None = None
        while True:
            slot.run(LOOK_US)
            shown = slot.get(status)
            if shown.state == "Valid" and shown != before:
                data = slot.datasets.pack(DATASET, shown.value)
                say("shows", counter=shown.counter, controller=shown.value[0], data=data.hex())
            before = shown


if __name__ == "__main__":
    main(*sys.argv[1:])
