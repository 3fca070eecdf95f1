"""Calls by chance."""
from __future__ import annotations

from typing import Any

from .beside import Beside
from .draws import Draws, words
from .slot import SERVED, Slot
from .telegrams import MD_PAYLOAD_MAX
from .texts import ip_text, place_text

# The words of a call, or those after its first one.
Words = tuple[object, ...]

MAKING = ("publish", "subscribe", "openpull", "listen", "notify", "request")
ENDING = {
    "publisher": "unpublish", "subscription": "unsubscribe", "requester": "closepull", "listener": "unlisten",
    "caller": "abort", "replier": "abort",
}  # fmt: skip


class Calls:
    """Makes lines that call slots by themselves, at what they have."""

    def __init__(self, draws: Draws, beside: Beside) -> None:
        self.draws, self.beside = draws, beside

    def line(self) -> str:
        """A call of any slot: to make something, to have an object do what it serves, to end one or all, or a wrong
        one."""
        slots, draws = self.beside.slots, self.draws
        number = draws.random.randrange(len(slots))
        slot = slots[number]
        if draws.one_in(80):
            number = draws.of(len(slots), 16, 65535)
        if draws.one_in(150):
            return words("call", number, "reset")
        it = self.chosen(slot)
        share = draws.random.randrange(20)
        if it is None or share < 6:
            return words("call", number, *self.making())
        if share < 15:
            return words("call", number, *self.serving(it))
        if share < 16:
            return words("call", number, ENDING[it.kind], it.handle)
        return words("call", number, *self.stray(slot))

    def chosen(self, slot: Slot) -> Any:
        """An object of the slot: rather one that owes an answer, or waits for one, if it has any."""
        objects = list(slot.objects.values())
        if not self.draws.one_in(3):
            repliers = slot.of("replier")
            answered = [it for it in repliers if not it.asked] if self.draws.one_in(4) else []
            objects = answered or repliers or slot.of("caller") or objects
        return self.draws.of(*objects) if objects else None

    def making(self) -> Words:
        word = self.draws.random.choice(MAKING)
        return word, *getattr(self, word)()

    def serving(self, it: Any) -> Words:
        """A call that the object serves; of a listener, which serves none, one that makes something."""
        if it.kind == "listener":
            return self.making()
        word = self.draws.of("reply", "query", "replyerror") if it.kind == "replier" else SERVES[it.kind]
        return word, it.handle, *getattr(self, word)(it)

    def stray(self, slot: Slot) -> Words:
        """A call of any object, or of none, whatever that may be."""
        word = self.draws.random.choice(tuple(SERVED))
        handle = self.draws.of(0, slot.next, 2**32 - 1, *range(1, slot.next))
        return word, handle, *getattr(self, word, nothing)(None)

    def publish(self) -> Words:
        draws = self.draws
        terms = draws.com_id(), draws.dataset(), draws.span_or_none(), draws.of(0, 0, 1, 2, 255)
        return *terms, *draws.counts(), place_text(draws.place())

    def put(self, it: Any) -> Words:
        if self.draws.one_in(30):
            return (bytes(self.draws.of(1432, 1433)),)
        return (self.draws.near_value(self.beside.settings.datasets, it.dataset if it else 0),)

    def subscribe(self) -> Words:
        draws = self.draws
        low, high = draws.bounds()
        filters = ip_text(low), ip_text(high), ip_text(draws.destination())
        terms = draws.com_id(), draws.dataset(), *filters, *draws.counts()
        return *terms, draws.span_or_none(), draws.of("zero", "keep")

    def get(self, it: Any) -> Words:
        return ()

    def openpull(self) -> Words:
        draws = self.draws
        reply = draws.of(0, 0, draws.com_id()), ip_text(draws.of(0, 0, draws.address()))
        return draws.com_id(), *reply, *draws.counts(), place_text(draws.place())

    def pull(self, it: Any) -> Words:
        return ()

    def listen(self) -> Words:
        draws = self.draws
        low, high = draws.bounds()
        filters = ip_text(low), ip_text(high), ip_text(draws.destination()), draws.uri()
        return draws.of("any", draws.com_id(), draws.com_id()), *filters, *draws.counts()

    def notify(self) -> Words:
        draws = self.draws
        terms = draws.com_id(), draws.uri(), draws.uri(), *draws.counts(), place_text(draws.place())
        return *terms, draws.long(MD_PAYLOAD_MAX, 30)

    def request(self) -> Words:
        draws = self.draws
        expected = draws.of(9, 255) if draws.one_in(25) else draws.of(0, 0, 1, 1, 2, 3, 8)
        sessions = [it.session for slot in self.beside.slots for it in slot.of("caller")]
        session = draws.of(*sessions) if sessions and draws.one_in(8) else draws.session()
        terms = draws.com_id(), draws.session_word(session), expected, draws.span(), draws.uri(), draws.uri()
        retries = draws.of((), (0,), (1,), (2,), (2,), (3,))
        return *terms, *draws.counts(), place_text(draws.place()), draws.long(MD_PAYLOAD_MAX, 30), *retries

    def reply(self, it: Any) -> Words:
        return self.draws.com_id(), self.draws.status(), self.draws.long(MD_PAYLOAD_MAX, 8)

    def query(self, it: Any) -> Words:
        draws = self.draws
        return draws.com_id(), draws.status(), draws.span(), draws.long(MD_PAYLOAD_MAX, 8)

    def replyerror(self, it: Any) -> Words:
        return self.draws.com_id(), self.draws.error()

    def confirm(self, it: Any) -> Words:
        """At a place that awaits it, where there is one, and else at any."""
        awaiting = [place for place, awaits in it.answers.items() if awaits] if it else []
        place = self.draws.peer() if self.draws.one_in(8) or not awaiting else self.draws.of(*awaiting)
        return place_text(place), self.draws.status()


SERVES = {"publisher": "put", "subscription": "get", "requester": "pull", "caller": "confirm"}


def nothing(it: Any) -> Words:
    """The words after the handle of a call that has none."""
    return ()
