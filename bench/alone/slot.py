"""One slot by itself: its objects, each of which is looked at, one after another, at every event."""
from __future__ import annotations

from collections.abc import Callable
from typing import Any

from .data import Publisher, Requester, Subscription
from .messages import Caller, Listener, Replier, notify, told
from .refusals import refusal_of
from .rules import Setting, counts_match
from .settings import KINDS
from .telegrams import Data, Message
from .texts import Pair, session_text

MAKERS: dict[str, Callable[..., Any]] = {
    "publish": Publisher,
    "subscribe": Subscription,
    "openpull": Requester,
    "listen": Listener,
    "request": Caller,
}
# Calls of an object: the kinds that serve them.
SERVED = {
    "put": ("publisher",), "unpublish": ("publisher",), "get": ("subscription",), "unsubscribe": ("subscription",),
    "pull": ("requester",), "closepull": ("requester",), "unlisten": ("listener",), "confirm": ("caller",),
    "reply": ("replier",), "query": ("replier",), "replyerror": ("replier",), "abort": ("caller", "replier"),
}  # fmt: skip
ENDS = ("unpublish", "unsubscribe", "closepull", "unlisten", "abort")


class Slot:
    """A slot by itself. It sees each moment, role and pair of counts, each datagram, and its own calls."""

    def __init__(self, quotas: tuple[int, ...], setting: Setting) -> None:
        self.quotas = dict(zip(KINDS, quotas))
        self.setting = setting
        # By handle, which rises.
        self.objects: dict[int, Any] = {}
        self.next = 1

    def of(self, kind: str) -> list[Any]:
        return [it for it in self.objects.values() if it.kind == kind]

    def is_full(self, kind: str) -> bool:
        return len(self.of(kind)) >= self.quotas[kind]

    def has_session(self, kind: str, session: int) -> bool:
        return any(it.session == session for it in self.of(kind))

    def add(self, made: Any) -> None:
        self.objects[made.handle] = made
        self.next += 1

    def swept(self, lines: list[str], it: Any) -> list[str]:
        """The lines of an object, which goes if it is over."""
        if getattr(it, "over", False):
            del self.objects[it.handle]
        return lines

    def moment(self, now: int) -> list[str]:
        """Each object that is due acts once, in the order of due moment and handle."""
        self.setting.now = now
        due = [(it.due, it.handle) for it in self.objects.values() if it.due is not None and it.due <= now]
        lines: list[str] = []
        for _, handle in sorted(due):
            it = self.objects[handle]
            lines += self.swept(it.fire(self.setting), it)
        return lines

    def topology(self, etb: int, op_trn: int) -> list[str]:
        self.setting.topo = (etb, op_trn)
        return []

    def role(self, group: int, leader: bool) -> list[str]:
        (self.setting.led.add if leader else self.setting.led.discard)(group)
        return []

    def telegram(self, telegram: Data | Message, source: Pair, destination: Pair) -> list[str]:
        if not counts_match(telegram.topo, self.setting.topo):
            self.setting.note("counts of another train")
            return []
        heard = (self.setting, telegram, source, destination)
        hearers = [it for it in self.objects.values() if it.hears(*heard)]
        if isinstance(telegram, Message) and telegram.kind in ("Mn", "Mr"):
            return self.message(hearers[0], telegram, source) if hearers else []
        lines: list[str] = []
        for it in hearers:
            lines += self.swept(it.take(self.setting, telegram, source), it)
        return lines

    def message(self, listener: Listener, message: Message, source: Pair) -> list[str]:
        """What the first listener's slot makes of a notification or a request."""
        if message.kind == "Mn":
            return [f"notified {listener.handle} {told(source, message)}"]
        if self.has_session("replier", message.session):
            self.setting.note("asked already")
            return []
        if self.is_full("replier"):
            return [f"overrun {listener.handle}"]
        replier = Replier(self.next, self.setting, source, message)
        self.add(replier)
        session = session_text(message.session)
        return [f"asked {listener.handle} {replier.handle} {session} {told(source, message)}"]

    def make(self, made: Any) -> list[str]:
        self.add(made)
        return [f"handle {made.handle}", *(made.request() if made.kind == "caller" else [])]

    def reset(self) -> list[str]:
        """The slot is reset: no object is left, and the next handle goes on."""
        self.objects.clear()
        return ["done"]

    def call(self, word: str, values: tuple[Any, ...]) -> list[str]:
        if word == "reset":
            return self.reset()
        it: Any = None
        if word in SERVED:
            it = self.objects.get(values[0])
            if it is None:
                return ["refused NoHandle"]
            if it.kind not in SERVED[word]:
                return ["refused WrongKind"]
            values = values[1:]
        if refusal := refusal_of(word, self, it, values):
            return [f"refused {refusal}"]
        if word in MAKERS:
            return self.make(MAKERS[word](self.next, self.setting, *values))
        if word == "notify":
            return notify(*values)
        if word in ENDS:
            del self.objects[it.handle]
            return ["done"]
        return self.swept(getattr(it, word)(self.setting, *values), it)
