"""Numbers, words and values by chance, of few different ones, so that they meet, and of all bounds."""
from __future__ import annotations

from random import Random
from typing import TypeVar

from .settings import WIDTHS, Datasets
from .texts import Pair, hex_text, ip_text, session_text

Item = TypeVar("Item")

OWN = 0x0A000001
ADDRESSES = range(OWN, OWN + 5)
PORTS = (17225, 17225, 17224, 5000)
COUNTS = (0, 0, 0, 0, 0, 7, 7, 8)
URIS = (b"", b"", b"", b"door", b"car", b"a" * 32)
BOUNDS = (0, 1, 999, 1000, 1001, 2**32 - 1)
# Datasets of every configuration. The value of 1005 just fits a telegram, that of 1006 doesn't.
DATASETS = """
[[dataset]]
id = 1001
element = [{ type = "UINT8" }, { type = "UINT16", size = 0 }]
[[dataset]]
id = 1002
element = [{ type = "INT16" }, { type = 15 }, { type = 1001 }]
[[dataset]]
id = 1003
element = [{ type = "UINT32" }, { type = "BOOL8", size = 0 }, { type = "INT64", size = 2 }]
[[dataset]]
id = 1004
element = [{ type = 1001, size = 3 }, { type = "UINT16" }, { type = 1002, size = 0 }]
[[dataset]]
id = 1005
element = [{ type = "CHAR8", size = 1432 }]
[[dataset]]
id = 1006
element = [{ type = "CHAR8", size = 1433 }]
"""
TYPED = (1001, 1001, 1002, 1003, 1004, 1005)


class Draws:
    """What is drawn from one generator."""

    def __init__(self, random: Random) -> None:
        self.random = random

    def one_in(self, count: int) -> bool:
        return self.random.randrange(count) == 0

    def of(self, *items: Item) -> Item:
        return self.random.choice(items)

    def com_id(self) -> int:
        return self.random.choice((0, 2**32 - 1)) if self.one_in(50) else 100 + self.random.randrange(3)

    def address(self) -> int:
        return self.random.choice(ADDRESSES)

    def place(self) -> Pair:
        return self.address(), self.random.choice(PORTS)

    def peer(self) -> Pair:
        """One of more places than a caller takes answers of."""
        return self.address(), 5000 + self.random.randrange(3)

    def counts(self) -> Pair:
        return self.random.choice(COUNTS), self.random.choice(COUNTS)

    def uri(self) -> bytes:
        return self.random.choice(URIS)

    def session(self) -> int:
        return self.random.getrandbits(128) if self.one_in(20) else self.random.randrange(6)

    def session_word(self, session: int) -> str:
        """One of the forms of a session."""
        text = session_text(session)
        if self.one_in(10):
            text = self.of(text.upper(), text.replace("-", ""), "urn:uuid:" + text, "{" + text + "}")
        return text

    def span(self) -> int:
        """A time that something may last, in microseconds."""
        return self.random.choice(BOUNDS) if self.one_in(8) else 1000 * self.random.randrange(2, 60)

    def span_or_none(self) -> int:
        return 0 if self.one_in(3) else self.span()

    def status(self) -> int:
        return self.of(-5, -1, 2**31 - 1, -(2**31)) if self.one_in(6) else self.random.randrange(4)

    def error(self) -> int:
        return self.of(0, 1, 7) if self.one_in(8) else self.of(-1, -5, -(2**31))

    def data(self, most: int = 9) -> bytes:
        return self.random.randbytes(self.random.randrange(most))

    def long(self, limit: int, times: int = 50) -> bytes:
        """Bytes about the limit, once in that many times, and else few."""
        return bytes(limit + self.of(-1, 0, 1, 1, 1)) if self.one_in(times) else self.data()

    def dataset(self) -> int:
        if self.one_in(12):
            return self.of(1006, 1006, 5, 2**32 - 1)
        return 0 if self.one_in(2) else self.random.choice(TYPED)

    def bounds(self) -> Pair:
        """The ends of a source range: any address, or some; seldom the wrong way round."""
        if self.one_in(2):
            return 0, 0
        low, high = sorted((self.address(), self.address()))
        return (high, low) if self.one_in(8) else (low, high)

    def destination(self) -> int:
        return self.of(OWN, OWN, OWN + 1) if self.one_in(3) else 0

    def value(self, datasets: Datasets, dataset: int) -> bytes:
        """Bytes of a dataset; of dataset 0 any."""
        if dataset == 0:
            return self.long(1432)
        data, count = b"", 0
        for kind, size in datasets.elements[dataset]:
            if width := WIDTHS.get(kind):
                times = size if size else count
                count = self.random.randrange(4) if times == 1 else 0
                data += count.to_bytes(width, "big") if times == 1 else self.random.randbytes(times * width)
            else:
                data += b"".join(self.value(datasets, kind) for _ in range(size or count))
        return data

    def near_value(self, datasets: Datasets, dataset: int) -> bytes:
        """A value of the dataset, or seldom such bytes and one more, or one less, or others."""
        value = self.value(datasets, dataset)
        if self.one_in(10):
            value = self.of(value + b"\0", value[:-1], self.data(), b"")
        return value


def config_by_chance(draws: Draws) -> str:
    """A configuration of some slots, which run short of each kind of object."""
    ports = "" if draws.one_in(2) else "pd_port = 20548\nmd_port = 20550\n"
    text = f'[node]\naddress = "{ip_text(OWN)}"\n{ports}'
    for _ in range(draws.of(1, 2, 3, 5)):
        text += "[[slot]]\n"
        for kind in ("publishers", "subscriptions", "requesters", "listeners", "callers", "repliers"):
            text += f"{kind} = {draws.of(0, 1, 2, 3, 4, 6)}\n"
    return text + DATASETS


def words(*items: object) -> str:
    """A line of these words: bytes as hexadecimal digits, all others as they are."""
    return " ".join(hex_text(it) if isinstance(it, bytes) else str(it) for it in items)
