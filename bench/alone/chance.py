"""Events by chance, each over the state that the slots by themselves have reached."""
from __future__ import annotations

from collections.abc import Sequence

from .arrivals import Arrivals
from .beside import Beside
from .calls import Calls
from .draws import Draws, words
from .rules import LAST_MOMENT

LONGEST = 2**32


class Chance:
    """Lines by chance, for slots by themselves; the last part of them is about the last moment."""

    def __init__(self, draws: Draws, beside: Beside, events: int) -> None:
        self.draws, self.beside = draws, beside
        self.calls, self.arrivals = Calls(draws, beside), Arrivals(draws, beside)
        self.left, self.late = events, events // 12

    def line(self) -> str:
        """The next line."""
        self.left -= 1
        if self.left == self.late:
            return words("moment", LAST_MOMENT - 60_000)
        share = self.draws.random.randrange(100)
        if share < 20:
            return self.moment()
        if share < 58:
            return self.arrivals.line()
        if share < 96:
            return self.calls.line()
        return self.other()

    def other(self) -> str:
        """What the node's surroundings do."""
        draws = self.draws
        share = draws.random.randrange(20)
        if share < 8:
            return words("topology", *self.counts())
        if share < 18:
            return words("role", draws.of(0, 1, 1, 2, 2, 255), draws.of("leader", "leader", "follower"))
        return words("addslot", *(draws.of(0, 1, 2, 3, 5) for _ in range(6)))

    def counts(self) -> Sequence[int]:
        """Counts of the train: none, any, or those at which a caller's request isn't sent again."""
        topos = [it.topo for slot in self.beside.slots for it in slot.of("caller") if any(it.topo)]
        if topos and self.draws.one_in(2):
            return [count and 15 - count for count in self.draws.of(*topos)]
        return self.draws.counts() if self.draws.one_in(2) else (0, 0)

    def next_due(self) -> int | None:
        """When the first object of some slot is due; None where none is."""
        slot = self.draws.random.choice(self.beside.slots)
        return min((it.due for it in slot.objects.values() if it.due is not None), default=None)

    def moment(self) -> str:
        draws, now = self.draws, self.beside.now
        if draws.one_in(40):
            return words("moment", draws.of(0, max(now - 1, 0), LAST_MOMENT + 1, 2**64 - 1))
        due = self.next_due()
        late = now > LAST_MOMENT - 100_000
        if draws.one_in(60) and not late:
            moment = now + draws.of(100_000, 1_000_000, LONGEST, 2**40)
        elif due is None or draws.one_in(2) or due > now + 1_000_000:
            moment = now + draws.of(0, 1, 200, 1000, 2000)
        else:
            moment = due + draws.of(-1, 0, 0, 0, 1)
        # At the last moment time stands still, which comes soon enough.
        last = LAST_MOMENT if not late or draws.one_in(4) else LAST_MOMENT - 1
        return words("moment", max(now, min(moment, last)))
