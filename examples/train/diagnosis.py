#!/usr/bin/env python3
"""The application of a diagnosis device: it asks who is there, and then says when the doors are silent.

    diagnosis.py CONFIG CONTROLS
"""
from __future__ import annotations

import pathlib
import sys

sys.path.insert(0, str(pathlib.Path(__file__).resolve().parents[2] / "clients/python"))
import train  # noqa: E402
from train import DATASET, say  # noqa: E402
from trdp_slot import Alive, Closed, Replied, Silent, Slot  # noqa: E402

ASK_US = 2_000_000
"""How long it waits for answers. It doesn't know how many devices there are."""


def main(config: str, controls: str) -> None:
    with Slot(config, 0, controls=controls, answer_us=train.PATIENCE_US) as slot:
        subscriptions = {
            slot.subscribe(com_id, dataset=DATASET, low=train.DOORS[0], high=train.DOORS[1], dest=dest,
                           time_us=train.SUPERVISION_US, behaviour="keep"): com_id
            for com_id, dest in [(train.STATUS, train.SEEN), (train.RECORD, train.DIAGNOSIS)]}
        slot.on(Silent, lambda told: say("silent", com_id=subscriptions[told.handle]))
        slot.on(Alive, lambda told: say("alive", com_id=subscriptions[told.handle]))
        slot.on(Replied, lambda told: say("replied", name=told.payload.decode()))
        slot.on(Closed, lambda told: say("closed", reason=told.reason))
        slot.request(train.WHO, f"{train.ALL}:{train.MD}", expected=0, time_us=ASK_US)
        say("ready")
        slot.run()


if __name__ == "__main__":
    main(*sys.argv[1:])
