"""A control port that is made up, without a daemon, and a client at it."""
from __future__ import annotations

import unittest
import uuid
from collections.abc import Callable, Sequence
from typing import Any

import testing
from testing import Said
from trdp_slot import Refused, Slot

ADDRESS = "127.0.8.40"
# How many microseconds what has to come is waited for, at a port whose thread may be late, and what doesn't come.
PATIENCE, SOON = 10_000_000, 50_000
MARKS = {"mark": "line fault Unknown", "get": "line fault Count", "get mark": "line fault BadWord"}
# What each client asks before its first call; what slot 0 says to it and to marks.
QUESTION = "get 0"
ANSWERS = {**MARKS, QUESTION: "0 refused NoHandle"}
# A session.
FIRST = uuid.UUID(int=0x0a0b0c0d000000000000000000000001)


class Node:
    """What a control port of a node says of calls, as far as the tests need it."""

    def __init__(self) -> None:
        self.made: dict[int, str] = {}  # the lines that made the objects, by handle
        self.put: dict[str, str] = {}
        self.highest = 0

    def start_anew(self) -> None:
        """Has no objects."""
        self.made, self.put, self.highest = {}, {}, 0

    def answer(self, line: str) -> list[str]:
        """The answer to a line."""
        if line in ANSWERS:
            return [ANSWERS[line]]
        verb, *words = line.split()
        if verb in ("publish", "subscribe", "openpull", "listen", "request"):
            self.highest += 1
            self.made[self.highest] = line
            return [f"0 handle {self.highest}"]
        if verb == "reset":
            self.made.clear()
        elif verb not in ("notify", "#") and int(words[0]) not in self.made:
            return ["0 refused NoHandle"]
        if verb == "get":
            is_subscription = self.made[int(words[0])].startswith("subscribe")
            return [f"0 value Valid {words[0]} {int(words[0]):02x}"] if is_subscription else ["0 refused WrongKind"]
        if verb == "put":
            self.put[words[0]] = words[1]
        if verb in ("unpublish", "unsubscribe", "closepull", "unlisten", "abort", "reply", "replyerror"):
            del self.made[int(words[0])]
        return ["0 done"]


class Case(unittest.TestCase):
    """A client at a made-up port. `self.say` may be set to what a line is answered by."""

    def setUp(self) -> None:
        self.node = Node()
        self.say: Callable[[str], Sequence[Said]] = self.node.answer
        self.port = testing.Port(ADDRESS, lambda line: self.say(line))
        self.addCleanup(self.port.close)

    def client(self, **words: Any) -> Slot:
        """A client at the port, which says no reset unless it is to."""
        words = {"answer_us": PATIENCE, "reset": False, **words}
        slot = Slot(ADDRESS, self.port.number, **words)
        self.addCleanup(slot.close)
        return slot

    def asked(self, **words: Any) -> Slot:
        """A client that knows already which slot the port belongs to, and that awaits nothing."""
        slot = self.client(**words)
        self.assertRaises(Refused, slot.get, 0)
        slot.sync()
        return slot

    def losing(self, is_lost: Callable[[str], bool]) -> Callable[[str], Sequence[Said]]:
        """What the node answers, but to these lines, which get lost."""
        return lambda line: () if is_lost(line) else self.node.answer(line)

    def has_remarks(self, count: int) -> None:
        """That many remarks came, and what was sent before them: the thread takes them in their order, and late."""
        testing.wait_until(lambda: self.port.lines.count("#") == count)

    def calls(self) -> list[str]:
        """The calls that came, without questions, marks and remarks."""
        return [it for it in self.port.lines if it not in ANSWERS and it != "#"]
