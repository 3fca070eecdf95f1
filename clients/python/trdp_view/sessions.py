"""The sessions of messages: requests, their repeats, answers, queries and confirmations, and what never came."""
from __future__ import annotations

import uuid
from collections import OrderedDict
from dataclasses import dataclass, field

from trdp_ports import Datagram
from trdp_telegram import MD_HEADER, Telegram

from .known import File

SESSIONS_MOST = 500
"""The most sessions. If there are so many, a new one takes the place of the one that was quiet longest."""
TELEGRAMS_MOST = 32
"""The most telegrams that are kept of a session. Later ones are only counted."""
PAYLOAD_MOST = 1432
"""The most bytes that are kept of a message's payload."""
WAIT_US = 5_000_000
"""How long an answer is waited for, if neither the telegram nor the file says it."""
ANSWERS = ("Mp", "Mq", "Me")
LAST = ("Mp", "Me", "Mc")
"""The types by which a session ends."""
NO_SESSION = uuid.UUID(int=0)


@dataclass(frozen=True, slots=True)
class Message:
    """A telegram of a session, without what of its payload is too long."""

    time_us: int
    source: tuple[str, int]
    dest: tuple[str, int]
    kind: str
    com_id: int
    counter: int
    status: int
    wait_us: int
    """How long its sender waits for an answer to it: to a request or a query."""
    data: bytes


@dataclass(slots=True)
class Session:
    """A session, and what was heard of it."""

    session: uuid.UUID
    messages: list[Message] = field(default_factory=list)
    left_out: int = 0
    version: int = 0
    """The version of the network in which it changed last."""
    never: list[str] = field(default_factory=list)
    """What never came, as it was looked at last."""

    @property
    def com_id(self) -> int:
        """The comId of its first request; without one that of its first telegram."""
        return next((it.com_id for it in self.messages if it.kind == "Mr"), self.messages[0].com_id)

    def unconfirmed(self) -> list[Message]:
        """The queries that are without a confirmation."""
        confirmed = {it.dest[0] for it in self.messages if it.kind == "Mc"}
        return [it for it in self.messages if it.kind == "Mq" and it.source[0] not in confirmed]

    @property
    def is_ended(self) -> bool:
        """Whether it came to its end: by a reply, an error or a confirmation, and no query is without one."""
        return any(it.kind in LAST for it in self.messages) and not self.unconfirmed()

    def missing(self, now_us: int) -> list[str]:
        """What should have come before that time, and didn't."""
        found = [f"confirmation to {it.source[0]}" for it in self.unconfirmed() if now_us > it.time_us + it.wait_us]
        requests = [it for it in self.messages if it.kind == "Mr"]
        is_answered = any(it.kind in ANSWERS or it.kind == "Mc" for it in self.messages)
        if requests and not is_answered and now_us > requests[-1].time_us + requests[-1].wait_us:
            found.append("answer")
        return found


class Sessions:
    """The sessions by their identifiers, the one that was quiet longest first."""

    def __init__(self, file: File) -> None:
        self.file = file
        self.by_id: OrderedDict[uuid.UUID, Session] = OrderedDict()
        self.dropped = 0

    def take(self, telegram: Telegram, came: Datagram) -> Session | None:
        """Takes a message. Answers its session; None if it has none, as a notification."""
        if telegram.kind == "Mn" or telegram.session == NO_SESSION:
            return None
        session = self.by_id.get(telegram.session)
        if session is None:
            if len(self.by_id) >= SESSIONS_MOST:
                self.by_id.popitem(last=False)
                self.dropped += 1
            session = self.by_id[telegram.session] = Session(telegram.session)
        self.by_id.move_to_end(telegram.session)
        if len(session.messages) < TELEGRAMS_MOST:
            session.messages.append(self.message(telegram, came))
        else:
            session.left_out += 1
        return session

    def message(self, telegram: Telegram, came: Datagram) -> Message:
        """What is kept of a message."""
        known = self.file.known.get(telegram.com_id)
        named = None if known is None else known.reply_us if telegram.kind == "Mr" else known.confirm_us
        return Message(came.time_us, came.source, came.dest, telegram.kind, telegram.com_id, telegram.counter,
                       telegram.status, telegram.time_us or named or WAIT_US, came.data[:MD_HEADER + PAYLOAD_MOST])
