"""Objects of message data: listeners, callers, repliers."""
from __future__ import annotations

from typing import Any

from .rules import Setting, counts_match, passes
from .telegrams import Message, write_md
from .texts import Pair, hex_text, place_text

# From how many places a caller takes answers at most.
PLACES_MAX = 8
# What a received time of 0 means, in microseconds.
TIME_UNSAID = 5_000_000


def sent(place: Pair, message: Message) -> str:
    return f"send md {place_text(place)} {write_md(message).hex()}"


def told(source: Pair, message: Message) -> str:
    """A message, as a listener's slot receives it."""
    uris = f"{hex_text(message.source_uri)} {hex_text(message.dest_uri)}"
    return f"{place_text(source)} {message.com_id} {uris} {hex_text(message.payload)}"


def time_of(message: Message) -> int:
    return message.time or TIME_UNSAID


def notify(com_id: int, source_uri: bytes, dest_uri: bytes, etb: int, op_trn: int, to: Pair,
           payload: bytes) -> list[str]:
    message = Message("Mn", com_id, payload, topo=(etb, op_trn), source_uri=source_uri, dest_uri=dest_uri)
    return ["done", sent(to, message)]


class Listener:
    kind = "listener"
    due = None

    def __init__(self, handle: int, setting: Setting, com_id: int | None, low: int, high: int, dest: int, uri: bytes,
                 etb: int, op_trn: int) -> None:
        self.handle, self.com_id, self.source = handle, com_id, (low, high)
        self.dest, self.uri, self.topo = dest, uri, (etb, op_trn)

    def hears(self, setting: Setting, message: Any, source: Pair, destination: Pair) -> bool:
        if message.kind not in ("Mn", "Mr") or self.com_id not in (None, message.com_id):
            return False
        if self.uri not in (b"", message.dest_uri):
            setting.note("listener: other URI")
            return False
        return passes(self, setting, message, source, destination)


class Caller:
    kind = "caller"

    def __init__(self, handle: int, setting: Setting, com_id: int, session: int, expected: int, time: int,
                 source: bytes, dest: bytes, etb: int, op_trn: int, to: Pair, payload: bytes, retries: int) -> None:
        self.handle, self.session, self.expected, self.time = handle, session, expected, time
        self.com_id, self.uris, self.topo, self.to = com_id, (source, dest), (etb, op_trn), to
        self.payload, self.retries, self.sent = payload, retries, 0
        self.due = setting.now + time
        # Each place that has answered, and whether it awaits a confirmation.
        self.answers: dict[Pair, bool] = {}
        self.over = False

    def request(self) -> list[str]:
        message = Message("Mr", self.com_id, self.payload, self.sent, self.topo, 0, self.session, self.time, *self.uris)
        self.sent += 1
        return [sent(self.to, message)]

    def close(self, reason: str) -> list[str]:
        self.over = True
        return [f"closed {self.handle} {reason}"]

    def done(self, when: str, setting: Setting) -> list[str]:
        """Closes it where it has all that it waits for."""
        if self.expected == 0 or len(self.answers) < self.expected or any(self.answers.values()):
            return []
        setting.note(f"done {when}")
        return self.close("Done")

    def fire(self, setting: Setting) -> list[str]:
        if not self.answers and self.retries > 0:
            self.retries -= 1
            self.due = setting.now + self.time
            if not counts_match(self.topo, setting.topo):
                setting.note("retry not sent")
                return []
            setting.note(f"retry {self.sent}")
            return self.request()
        if not self.answers:
            return self.close("NoReply")
        if len(self.answers) < self.expected:
            return self.close("NotAllReplies")
        if any(self.answers.values()):
            return self.close("NotConfirmed")
        setting.note("done in the end")
        return self.close("Done")

    def hears(self, setting: Setting, message: Any, source: Pair, destination: Pair) -> bool:
        if message.kind not in ("Mp", "Mq", "Me") or message.session != self.session:
            return False
        if counts_match(self.topo, message.topo):
            return True
        setting.note("caller: other counts")
        return False

    def take(self, setting: Setting, message: Message, source: Pair) -> list[str]:
        if source in self.answers:
            setting.note("answered already")
            return []
        if len(self.answers) >= (self.expected or PLACES_MAX):
            setting.note("answers enough")
            return []
        self.answers[source] = message.kind == "Mq"
        if message.kind == "Mq":
            end = setting.now + time_of(message)
            setting.note("deadline put off" if end > self.due else "deadline kept")
            self.due = max(self.due, end)
        answer = f"{place_text(source)} {message.kind} {message.status} {message.com_id} {hex_text(message.payload)}"
        return [f"replied {self.handle} {answer}"] + self.done("by an answer", setting)

    def confirm(self, setting: Setting, place: Pair, status: int) -> list[str]:
        self.answers[place] = False
        message = Message("Mc", self.com_id, b"", 0, self.topo, status, self.session, 0, *self.uris)
        return ["done", sent(place, message)] + self.done("by a confirmation", setting)


class Replier:
    kind = "replier"

    def __init__(self, handle: int, setting: Setting, peer: Pair, request: Message) -> None:
        self.handle, self.peer, self.session, self.topo = handle, peer, request.session, request.topo
        # From whom it was for, to whom it came from.
        self.uris = (request.dest_uri, request.source_uri)
        self.due = setting.now + time_of(request)
        self.asked, self.over = True, False
        setting.note("time said" if request.time else "time unsaid")

    def fire(self, setting: Setting) -> list[str]:
        self.over = True
        return [f"closed {self.handle} {'ReplyMissed' if self.asked else 'NoConfirm'}"]

    def hears(self, setting: Setting, message: Any, source: Pair, destination: Pair) -> bool:
        if message.kind != "Mc" or message.session != self.session:
            return False
        if self.asked:
            setting.note("confirmed too soon")
        elif source[0] != self.peer[0]:
            setting.note("confirmed by another")
        elif not counts_match(self.topo, message.topo):
            setting.note("replier: other counts")
        else:
            return True
        return False

    def take(self, setting: Setting, message: Message, source: Pair) -> list[str]:
        setting.note("confirmed from its port" if source == self.peer else "confirmed from another port")
        self.over = True
        return [f"confirmed {self.handle} {message.status}"]

    def answer(self, kind: str, com_id: int, status: int, payload: bytes = b"", time: int = 0) -> list[str]:
        message = Message(kind, com_id, payload, 0, self.topo, status, self.session, time, *self.uris)
        return ["done", sent(self.peer, message)]

    def reply(self, setting: Setting, com_id: int, status: int, payload: bytes) -> list[str]:
        self.over = True
        return self.answer("Mp", com_id, status, payload)

    def query(self, setting: Setting, com_id: int, status: int, time: int, payload: bytes) -> list[str]:
        self.asked, self.due = False, setting.now + time
        return self.answer("Mq", com_id, status, payload, time)

    def replyerror(self, setting: Setting, com_id: int, status: int) -> list[str]:
        self.over = True
        return self.answer("Me", com_id, status)
