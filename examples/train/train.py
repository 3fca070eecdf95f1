"""What the applications of the train have in common: the numbers that they share, and how they report what they see."""
from __future__ import annotations

import json
import time

STATUS, RECORD = 2101, 2102
"""The comIds of the doors' status: to everybody, and to diagnosis alone."""
DATASET = 5003
"""The dataset of both."""
WHO, HERE = 1201, 2201
"""The comIds of the request who is there, and of the answer, which is a name."""
SEEN, ALL = "239.192.0.1", "239.192.0.2"
"""The groups: those who see the doors' status, and all devices."""
DOORS = ("10.0.1.21", "10.0.1.22")
"""The two door controllers, of which the first one leads where both are heard."""
DIAGNOSIS = "10.0.1.41"
REDUNDANT = 1
"""The redundancy group of the two."""
PD, MD = 17224, 17225
CYCLE_US, SUPERVISION_US = 200_000, 2_000_000
"""How often the status goes out, and how long its receivers wait for it."""
TAKEOVER_US = 3 * CYCLE_US
"""How long the follower waits for the leader: three telegrams, so that one that is lost means nothing."""
PATIENCE_US = 20_000_000
"""How long an application waits for an answer, on a machine that is busy with other things."""


def say(kind: str, **words: object) -> None:
    """Reports what this application sees, in a line of JSON with the time of the machine's steady clock."""
    print(json.dumps({"kind": kind, "at": time.monotonic(), **words}), flush=True)
