"""Long scripts: a node at every limit, and a publisher's first ten thousand telegrams."""
from __future__ import annotations

from collections.abc import Iterator

from .settings import KINDS
from .telegrams import Message, write_md

OBJECTS, DATASETS, ELEMENTS, SLOTS = 256, 256, 256, 16
NODE = '[node]\naddress = "10.0.0.1"\n'
SLOT = "[[slot]]\n" + "".join(f"{kind}s = {OBJECTS}\n" for kind in KINDS)
HERE = "10.0.0.1:17225"
LONGEST = "5a" * 1432
# What is opened by a call, as often as a slot may have it and once more.
OPENED = (
    "publish 100 0 1000 0 0 0 10.0.0.2:17224",
    f"subscribe 100 {999 + DATASETS} 0.0.0.0 0.0.0.0 0.0.0.0 0 0 1000 zero",
    "openpull 100 0 0.0.0.0 0 0 10.0.0.2:17224",
    "listen any 0.0.0.0 0.0.0.0 0.0.0.0 - 0 0",
)


def dataset(number: int) -> str:
    """A dataset of as many bytes as there may be elements."""
    return f"[[dataset]]\nid = {number}\nelement = [{'{ type = 8 }, ' * ELEMENTS}]\n"


def session(number: int) -> str:
    """How a session is spelled."""
    digits = f"{number:032x}"
    return "-".join((digits[:8], digits[8:12], digits[12:16], digits[16:20], digits[20:]))


def asked(number: int) -> Iterator[str]:
    """Slot 0 asks its own node in that session, and waits a millisecond for the answer; and the request, as it comes
    in."""
    yield f"call 0 request 300 {session(number)} 1 1000 - - 0 0 {HERE} 0d"
    yield came_in(number)


def came_in(number: int) -> str:
    return f"md {HERE} {HERE} {write_md(Message('Mr', 300, bytes([0x0d]), session=number, time=1000)).hex()}"


def filled() -> Iterator[str]:
    """Slot 0 has as many objects of each kind as it may, each publisher the longest value; by 1000 microseconds all is
    due."""
    for opened in OPENED:
        yield from [f"call 0 {opened}"] * (OBJECTS + 1)
    for number in range(1, OBJECTS + 1):
        yield from asked(number)
    yield from asked(0)
    for handle in range(1, OBJECTS + 1):
        yield f"call 0 put {handle} {LONGEST}"
    yield "moment 1000"


def sent(count: int) -> Iterator[str]:
    """A publisher sends so often, once in 100 milliseconds."""
    yield "call 0 publish 100 0 100000 0 0 0 10.0.0.2:17224"
    yield "call 0 put 1 0a0b"
    for number in range(1, count + 1):
        yield f"moment {100000 * number}"


def all_of() -> Iterator[tuple[str, str, Iterator[str], dict[str, int]]]:
    """Each script with its name, its configuration, and how many of the lines that it gives hold which word."""
    largest = NODE + SLOT * SLOTS + "".join(dataset(1000 + it) for it in range(DATASETS))
    refused = len(OPENED) + 1
    words = {"handle": 5 * OBJECTS, "asked": OBJECTS, "refused Quota": refused, "overrun": 1, "done": OBJECTS}
    due = {"send pd": OBJECTS, "silent": OBJECTS, "closed": 2 * OBJECTS}
    yield "every limit", largest, filled(), {**words, **due, "send md": OBJECTS}
    one = NODE + "[[slot]]\npublishers = 1\n"
    yield "ten thousand telegrams", one, sent(10000), {"send pd": 10000, "handle": 1, "done": 1}
