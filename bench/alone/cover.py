"""What a run by chance has to reach: each kind of line, and what happens without one."""
from __future__ import annotations


from .lines import Event

SENDS = "Pd Pp Pr Mn Mr Mp Mq Mc Me"
REFUSED = {
    "publish": "Cycle NoDataset TooLong Quota",
    "put": "NoHandle WrongKind TooLong Shape",
    "unpublish": "NoHandle WrongKind",
    "subscribe": "Timeout Range NoDataset TooLong Quota",
    "get": "NoHandle WrongKind",
    "unsubscribe": "NoHandle WrongKind",
    "openpull": "Quota",
    "pull": "NoHandle WrongKind State",
    "closepull": "NoHandle WrongKind",
    "listen": "Range Quota",
    "unlisten": "NoHandle WrongKind",
    "notify": "State TooLong",
    "request": "State Timeout Expected TooLong SessionOpen Quota Retries",
    "reply": "NoHandle WrongKind State Status TooLong",
    "query": "NoHandle WrongKind State Timeout Status TooLong",
    "replyerror": "NoHandle WrongKind State Status",
    "confirm": "NoHandle WrongKind State Status",
    "abort": "NoHandle WrongKind",
}
MAKERS = "publish subscribe openpull listen request"
DOERS = "put unpublish unsubscribe pull closepull unlisten notify reply query replyerror confirm abort reset"
REASONS = "Done NoReply NotAllReplies NotConfirmed ReplyMissed NoConfirm"
FAULTS = "NoSlot Past TooLate NoGroup SlotsFull"
TOLD = "opened silent alive notified asked overrun confirmed"

# What the slots note; each came without a line of its own.
NOTED = """
pd Short, pd TooLong, pd Fcs, pd Version, pd Kind, pd Length
md Short, md TooLong, md Fcs, md Version, md Kind, md Length
came Pd, came Pp, came Pr, came Pe, came Mn, came Mr, came Mp, came Mq, came Mc, came Me, counts of another train
Pd sent, Pd no value, Pd not led, Pd other counts, Pp sent, Pp no value, Pp not led, Pp other counts
cycle on time, cycles missed, publisher: other counts
subscription: other source, subscription: other destination, subscription: other counts
no value of the dataset, stale, Pd taken, Pp taken
listener: other source, listener: other destination, listener: other counts, listener: other URI, asked already
caller: other counts, answered already, answers enough, deadline put off, deadline kept
done by an answer, done by a confirmation, done in the end, retry 1, retry 2, retry not sent
time said, time unsaid, confirmed too soon, confirmed by another, replier: other counts
confirmed from its port, confirmed from another port
"""


def name_of(event: Event, line: str) -> str:
    """What kind of line an event gave."""
    slot, *parts = line.split(" ")
    if slot == "fault":
        return line
    if parts[0] in ("handle", "done"):
        return f"{parts[0]} {event.word}"
    if parts[0] == "refused":
        return f"refused {parts[1]} {event.word}"
    if parts[0] == "send":
        return "send " + bytes.fromhex(parts[3][12:16]).decode()
    if parts[0] == "replied":
        return f"replied {parts[3]}"
    if parts[0] in ("value", "closed"):
        return f"{parts[0]} {parts[1] if parts[0] == 'value' else parts[2]}"
    return parts[0]


def each(before: str, words: str) -> list[str]:
    return [f"{before} {word}" for word in words.split()]


def wanted() -> list[str]:
    """All that has to come."""
    names = each("handle", MAKERS) + each("done", DOERS) + each("value", "Never Valid Silent") + TOLD.split()
    names += [f"refused {refusal} {word}" for word, refusals in REFUSED.items() for refusal in refusals.split()]
    names += each("send", SENDS) + each("closed", REASONS) + each("fault", FAULTS) + each("replied", "Mp Mq Me")
    return names + [note.strip() for line in NOTED.strip().split("\n") for note in line.split(",")]
