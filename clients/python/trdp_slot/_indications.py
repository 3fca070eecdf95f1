"""The objects of a slot, what a subscription shows, and what the node reports."""
# Without `from __future__ import annotations`: typing.get_type_hints looks for the names in the package.
import uuid
from typing import Any, NamedTuple


class Handle:
    """An object of the slot: calls name it, and indications report of it.

    `kind` is "publisher", "subscription", "requester", "listener", "caller" or "replier", and "unknown" where an
    indication names an object that this client never heard of. `number` is the node's number of it, 1, 2, 3 ..;
    it changes where the object is made again. `dataset` is that of its values, 0 for bytes.
    """

    def __init__(self, kind: str, number: int, dataset: int = 0, line: str | None = None) -> None:
        self.kind = kind
        self.number = number
        self.dataset = dataset
        self._line = line  # by which it is made again
        self._data: bytes | None = None  # the value that a publisher has
        self._start = -1  # at which start of the daemon it was made, as its client counts them

    def __repr__(self) -> str:
        return f"<{self.kind} {self.number}>"


class Value(NamedTuple):
    """What a subscription shows. `state` is "Never" before the first telegram, "Valid" or "Silent"; `counter` that
    of the latest telegram that was accepted; `value` a value of the subscription's dataset, or bytes."""

    state: str
    counter: int
    value: Any


class Silent(NamedTuple):
    """The subscription accepted no telegram within its supervision time."""

    handle: Handle


class Alive(NamedTuple):
    """The subscription was silent, and has accepted a telegram again."""

    handle: Handle


class Notified(NamedTuple):
    """A listener heard a notification."""

    listener: Handle
    source: str
    com_id: int
    source_uri: str
    dest_uri: str
    payload: bytes


class Asked(NamedTuple):
    """A listener heard a request. The replier owes the answer: `reply`, `query` or `replyerror`, in the time that
    the request left."""

    listener: Handle
    replier: Handle
    session: uuid.UUID
    source: str
    com_id: int
    source_uri: str
    dest_uri: str
    payload: bytes


class Overrun(NamedTuple):
    """A listener heard a request, and the slot can't have one more replier. This slot won't answer it."""

    listener: Handle


class Replied(NamedTuple):
    """A caller has an answer. `kind` is "Mp", a reply, "Mq", a reply that is to be confirmed, or "Me", an error."""

    caller: Handle
    source: str
    kind: str
    status: int
    com_id: int
    payload: bytes


class Confirmed(NamedTuple):
    """The query of a replier is confirmed, and the replier is over."""

    replier: Handle
    status: int


class Closed(NamedTuple):
    """A caller or a replier is over. `reason` is "Done", "NoReply", "NotAllReplies", "NotConfirmed" (of a caller),
    "ReplyMissed" or "NoConfirm" (of a replier)."""

    handle: Handle
    reason: str


class Lost(NamedTuple):
    """Not of an object: that many texts or datagrams of the node were lost before the next indication, because this
    program read too slowly. Some of them may have been answers."""

    texts: int


class Restarted(NamedTuple):
    """Not of the node: this client noticed that the slot has restarted, and so has none of its earlier objects: the
    daemon was started again, or the connection has ended, or the lease has run out.

    `declared` are the publishers, subscriptions, requesters and listeners, which a client with `restore` makes
    again; `lost` the callers and repliers, of whose sessions nothing more is heard."""

    declared: tuple[Handle, ...]
    lost: tuple[Handle, ...]


Indication = Silent | Alive | Notified | Asked | Overrun | Replied | Confirmed | Closed | Lost | Restarted

DECLARED = ("publisher", "subscription", "requester", "listener")
