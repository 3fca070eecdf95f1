"""What trdp-view keeps is bounded, whatever comes."""
from __future__ import annotations

import io
import math
import random
import struct
import tracemalloc
import unittest
import uuid
from collections.abc import Iterator
from unittest import mock

from made_capture import BEGIN_US, ETHERNET, RAW_IP, Caught, ethernet, in_fragments, ip, pcap, pcapng, udp
from test_view_print import CAUGHT, DESK, DOORS, MD, MESSAGES, PD
from testing import SEED
from trdp_ports import Datagram, Taker
from trdp_slot import Datasets, Element
from trdp_telegram import Telegram
from trdp_view.captures import NoCapture
from trdp_view.fragments import ASSEMBLIES_MOST
from trdp_view.kept import EACH, KEPT_MOST, Kept
from trdp_view.known import File
from trdp_view.network import FAULTS_MOST, Network
from trdp_view.report import page_row, printed
from trdp_view.rows import QUIET_US, ROWS_MOST
from trdp_view.sessions import SESSIONS_MOST, TELEGRAMS_MOST
from trdp_view.sources import Capture, Live
from trdp_view.values import leaves

SECOND = 1_000_000


def came(after_us: int, data: bytes, port: int = PD, source: str = DOORS) -> Datagram:
    """A datagram that came."""
    return Datagram((source, 17224), (DESK, port), data, BEGIN_US + after_us)


def source_of(capture: bytes) -> Capture:
    """The datagrams of a capture."""
    return Capture(io.BytesIO(capture), (PD, MD), grows=False)


class Limits(unittest.TestCase):
    """Each limit that the manual page says."""

    def test_memory_of_rows(self) -> None:
        """Of 20,000 telegrams of 200 rows each row is there, and the second half adds at most 5 % of memory."""
        telegrams = ((at, Telegram("Pd", 1000 + at % 200, at // 200, payload=bytes(100))) for at in range(20_000))
        packets = [Caught(at * 500, ip(f"10.0.1.{it.com_id % 8}", DESK, udp(it.write(), PD))) for at, it in telegrams]
        source = source_of(pcap(RAW_IP, packets))
        network = Network(File(), MD)
        sizes = []
        tracemalloc.start()
        self.addCleanup(tracemalloc.stop)
        for number, it in enumerate(source.datagrams(), 1):
            network.add(it)
            if number in (10_000, 20_000):
                sizes.append(tracemalloc.get_traced_memory()[0])
        rows = printed(network, source.now_us())["rows"]
        self.assertEqual([(it["com_id"], it["count"], it["gaps"]) for it in rows],
                         [(1000 + at, 100, 0) for at in range(200)])
        self.assertLess(sizes[1], 1.05 * sizes[0])

    def test_rows(self) -> None:
        """A row that was quiet for a minute gives way to a new one. Else the new one is only counted."""
        network = Network(File(), MD)
        for number in range(ROWS_MOST + 5):
            network.add(came(number, Telegram("Pd", number).write()))
        self.assertEqual((len(network.rows.by_key), network.rows.left_out), (ROWS_MOST, 5))
        network.add(came(QUIET_US + 10, Telegram("Pd", ROWS_MOST + 5).write()))
        self.assertEqual((len(network.rows.by_key), network.rows.left_out, network.rows.dropped), (ROWS_MOST, 5, 1))

    def test_sessions(self) -> None:
        """The latest sessions are kept, and the first telegrams of each."""
        network = Network(File(), MD)
        for number in range(1, SESSIONS_MOST + 3):
            network.add(came(number, Telegram("Mr", 1, session=uuid.UUID(int=number)).write(), MD))
        latest = uuid.UUID(int=9)
        for number in range(TELEGRAMS_MOST + 3):
            network.add(came(number, Telegram("Mr", 1, number, session=latest, payload=bytes(9000)).write(), MD))
        session = network.sessions.by_id[latest]
        self.assertEqual((len(network.sessions.by_id), network.sessions.dropped), (SESSIONS_MOST, 2))
        self.assertEqual((len(session.messages), session.left_out), (TELEGRAMS_MOST, 4))
        self.assertEqual(max(len(it.data) for it in session.messages), 116 + 1432)

    def test_long_messages(self) -> None:
        """The page is told how long a long message is. Its value is not made and kept."""
        network = Network(File(), MD)
        for payload, text in ((b"\1\2", "0102"), (bytes(60_000), "60000 bytes")):
            network.add(came(0, Telegram("Mn", 300, payload=payload).write(), MD))
            row = next(iter(network.rows.by_key.values()))
            row.value = None
            self.assertEqual(page_row(network, row)["text"], text)
            self.assertEqual(row.value is None, len(payload) > 1432)

    def test_numbers_that_are_not_finite(self) -> None:
        """A number that a scale makes infinite isn't plotted: JSON has none such."""
        dataset = Datasets({31: [Element("UINT64", 1, name="n", as_="REAL64", scale=10.0)]}, com_ids={5: 31})
        for raw, wanted in ((1e300, {"n": 1e301}), (1e308, {}), (-1e308, {}), (math.nan, {})):
            self.assertEqual(leaves(File(dataset), 5, struct.pack(">d", raw)), wanted)

    def test_a_clock_that_is_set(self) -> None:
        """The time of what comes goes on evenly if the clock of the machine is set."""
        shown_us = BEGIN_US

        class Given(Taker):
            """Gives one datagram whenever it is asked."""

            def __init__(self) -> None:
                pass

            def take(self, seconds: float) -> Iterator[Datagram]:
                yield Datagram((DOORS, PD), (DESK, PD), b"", shown_us - 1000)

        with mock.patch("trdp_view.sources.clock_us", lambda: shown_us):
            source = Live(Given())
            begun_us = source.now_us()
            self.assertAlmostEqual(begun_us, BEGIN_US, delta=10 * SECOND)
            for shown_us in (BEGIN_US, BEGIN_US - 3600 * SECOND, 0, BEGIN_US + 3600 * SECOND):
                self.assertAlmostEqual(next(source.datagrams()).time_us, begun_us, delta=10 * SECOND)

    def test_faults(self) -> None:
        """What is no telegram is counted for so many senders."""
        network = Network(File(), MD)
        for number in range(FAULTS_MOST + 5):
            network.add(came(number, b"no telegram", source=f"10.1.{number // 250}.{number % 250}"))
        self.assertEqual(len(network.faults), FAULTS_MOST)

    def test_what_is_kept(self) -> None:
        """Datagrams are kept for some seconds, and only as many as memory allows."""
        kept = Kept(2.0)
        for number in range(100):
            kept.add(came(number * SECOND // 10, b"abc"), number % 2)
        self.assertEqual(len(kept.entries), 21)
        self.assertEqual(len(kept.of_row(1, BEGIN_US + 90 * SECOND // 10)), 5)
        long = bytes(65_000)
        for number in range(2000):
            kept.add(came(10 * SECOND + number, long), 1)
        self.assertEqual(len(kept.entries), KEPT_MOST // (EACH + len(long)))

    def test_fragments(self) -> None:
        """So many packets are put together at once; the oldest of too many is dropped."""
        parts = [in_fragments(f"10.2.0.{it}", DESK, udp(Telegram("Mn", 1, payload=bytes(3000)).write(), MD), 1480)
                 for it in range(ASSEMBLIES_MOST + 1)]
        packets = [Caught(0, it[0]) for it in parts] + [Caught(1, it) for part in reversed(parts) for it in part[1:]]
        source = source_of(pcap(RAW_IP, packets))
        self.assertEqual(len(list(source.datagrams())), ASSEMBLIES_MOST)
        self.assertEqual(source.unread(), 1)


class Chance(unittest.TestCase):
    """Captures that are spoiled at random."""

    def spoiled(self, chance: random.Random) -> Iterator[bytes]:
        """Captures with some bytes changed, left out or repeated."""
        fragments = [Caught(0, it) for it in in_fragments(DOORS, DESK, udp(CAUGHT[0].data, PD), 8)]
        packets = [*CAUGHT, *MESSAGES, *fragments]
        framed = [Caught(at, ethernet(it, 0x8100)) for at, it in packets]
        wholes = [pcapng(RAW_IP, packets), pcap(RAW_IP, packets, ">"), pcapng(ETHERNET, framed, ">"),
                  pcap(ETHERNET, framed)]
        for _ in range(1000):
            data = bytearray(chance.choice(wholes))
            for _ in range(chance.randrange(1, 20)):
                at = chance.randrange(len(data))
                match chance.randrange(3):
                    case 0:
                        data[at] = chance.randrange(256)
                    case 1:
                        del data[at:at + chance.randrange(1, 40)]
                    case _:
                        data[at:at] = data[at:at + chance.randrange(1, 40)]
            yield bytes(data)

    def test_spoiled_captures(self) -> None:
        """Each is read to its end, or refused by a sentence."""
        print(f"test_view_limits: TRDP_SEED={SEED}")
        refused = rows = 0
        for capture in self.spoiled(random.Random(SEED)):
            network, source = Network(File(), MD), source_of(capture)
            try:
                for it in source.datagrams():
                    network.add(it)
            except NoCapture:
                refused += 1
            rows += len(printed(network, source.now_us())["rows"])
        self.assertGreater(refused, 10)
        self.assertGreater(rows, 1000)
