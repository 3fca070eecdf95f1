"""trdp-view --print, over captures that are made up: what it prints was written by hand."""
from __future__ import annotations

import contextlib
import fcntl
import io
import json
import os
import pathlib
import signal
import subprocess
import sys
import tempfile
import termios
import unittest
import uuid
from collections.abc import Callable
from typing import IO, Any
from unittest import mock

import trdp_view
from made_capture import BEGIN_US, COOKED, COOKED_2, ETHERNET, RAW_IP, Caught, cooked, cooked_2, ethernet
from made_capture import in_fragments, ip, pcap, pcapng, udp
from test_traps import is_asleep
from testing import PYTHON, wait_until
from trdp_telegram import Telegram

PD, MD = 17224, 17225
DOORS, DOORS_2, DESK, STRANGER, GROUP = "10.0.0.1", "10.0.0.4", "10.0.0.2", "10.0.0.9", "239.192.0.1"
TOML = """
[[dataset]]
id = 5002
element = [{ type = "UINT8" }, { type = "UINT8", size = 0 }, { type = "UINT16" }]
[[dataset]]
id = 5003
element = [{ type = "UINT16", size = 2 }]
[[telegram]]
com_id = 2101
dataset = 5002
name = "doors"
cycle_us = 100000
[[telegram]]
com_id = 2102
dataset = 5002
[[telegram]]
com_id = 2103
dataset = 5003
name = "speed"
time_us = 60000
[[telegram]]
com_id = 2104
dataset = 0
[[telegram]]
com_id = 2105
dataset = 5003
[[telegram]]
com_id = 2106
dataset = 5003
name = "never sent"
[[telegram]]
com_id = 300
dataset = 5002
name = "ask"
"""
CLOSED = bytes.fromhex("04000000000000")
SPEED = bytes.fromhex("00010002")
FIRST, SECOND = uuid.UUID(int=1), uuid.UUID(int=2)


def sent(after_us: int, source: str, dest: str, telegram: Telegram) -> Caught:
    """A packet that carries a telegram."""
    return Caught(after_us, ip(source, dest, udp(telegram.write(), MD if telegram.is_message else PD)))


def spoiled(caught: Caught) -> Caught:
    """A packet whose telegram has another topology counter than its headerFcs was made for."""
    return caught._replace(data=caught.data[:28 + 15] + b"\7" + caught.data[28 + 16:])


def row(source: str, dest: str, com_id: int, kind: str, count: int, **more: Any) -> dict[str, Any]:
    """A row that is printed, of which nothing else is known."""
    known: dict[str, Any] = {"name": None, "gaps": 0, "cycle_us": None, "median_us": None, "worst_us": None,
                             "silent": False, "value": None, "marks": []}
    return {"source": source, "dest": dest, "com_id": com_id, "type": kind, "count": count, **known, **more}


# Process data of 400 ms: each mark is there once, and one of each kind of fault of a counter.
CAUGHT = [
    *[sent(at * 100_000, DOORS, GROUP, Telegram("Pd", 2101, counter, 17, 4, CLOSED))
      for at, counter in enumerate([3, 4, 7, 7, 0])],
    sent(1_000, DOORS, DESK, Telegram("Pd", 2102, 0, 17, 4, CLOSED)),
    sent(101_000, DOORS, DESK, Telegram("Pd", 2102, 1, 17, 4, CLOSED + b"\0")),
    sent(201_000, DOORS, DESK, Telegram("Pd", 2102, 2, 17, 4, CLOSED)),
    sent(2_000, DOORS, GROUP, Telegram("Pd", 2103, 0, 17, 4, SPEED)),
    sent(3_000, DOORS_2, GROUP, Telegram("Pd", 2103, 9, 17, 4, SPEED)),
    sent(52_000, DOORS, GROUP, Telegram("Pd", 2103, 1, 17, 4, SPEED)),
    sent(4_000, DESK, DOORS, Telegram("Pd", 2104, 0, 17, 5, b"\xff")),
    sent(5_000, DESK, DOORS, Telegram("Pd", 2105, 0, 17, 4, SPEED)),
    spoiled(sent(105_000, DESK, DOORS, Telegram("Pd", 2105, 1, 17, 4, SPEED))),
    sent(6_000, STRANGER, DESK, Telegram("Pd", 666, 0, 0, 0, b"\1\2")),
    Caught(7_000, ip(STRANGER, DESK, udp(b"no telegram", PD))),
    Caught(8_000, ip(STRANGER, DESK, udp(Telegram("Pd", 1).write(), 53))),
    Caught(9_000, ip(STRANGER, DESK, b"", protocol=6)),
]
ROWS = [
    row(STRANGER, DESK, 666, "Pd", 1, value="0102", marks=["unknown"]),
    # The third counter is a gap, the fourth came again, and the last one begins anew.
    row(DOORS, GROUP, 2101, "Pd", 5, name="doors", gaps=1, cycle_us=100_000, median_us=100_000, worst_us=200_000,
        value=[4, [0, 0, 0, 0], 0]),
    row(DOORS, DESK, 2102, "Pd", 3, median_us=100_000, worst_us=100_000, value=[4, [0, 0, 0, 0], 0],
        marks=["no value"]),
    row(DOORS, GROUP, 2103, "Pd", 2, name="speed", median_us=50_000, worst_us=50_000, silent=True, value=[[1, 2]],
        marks=["two sources"]),
    row(DOORS_2, GROUP, 2103, "Pd", 1, name="speed", silent=True, value=[[1, 2]], marks=["two sources"]),
    row(DESK, DOORS, 2104, "Pd", 1, value="ff", marks=["counters"]),
    row(DESK, DOORS, 2105, "Pd", 2, value=[[1, 2]], marks=["headerFcs"]),
]


def message(after_us: int, source: str, dest: str, kind: str, session: uuid.UUID, com_id: int = 300,
            counter: int = 0) -> Caught:
    """A packet that carries a message; a request has a payload."""
    payload = CLOSED if kind == "Mr" else b""
    telegram = Telegram(kind, com_id, counter, payload=payload, session=session, time_us=100_000)
    return sent(after_us, source, dest, telegram)


MESSAGES = [
    message(0, DESK, DOORS, "Mr", FIRST), message(100_000, DESK, DOORS, "Mr", FIRST, counter=1),
    message(110_000, DOORS, DESK, "Mq", FIRST, 301), message(120_000, DESK, DOORS, "Mc", FIRST),
    message(130_000, DESK, DOORS_2, "Mr", SECOND), message(131_000, DESK, DOORS_2, "Mn", uuid.UUID(int=0), 302),
]


def is_drained(pipe: IO[bytes]) -> bool:
    """Whether all that was written into a pipe was read."""
    return fcntl.ioctl(pipe.fileno(), termios.FIONREAD, bytes(4)) == bytes(4)


class Print(unittest.TestCase):
    """What trdp-view prints of a capture."""

    def setUp(self) -> None:
        folder = tempfile.TemporaryDirectory()
        self.addCleanup(folder.cleanup)
        self.folder = pathlib.Path(folder.name)
        self.toml = self.folder / "node.toml"
        self.toml.write_text(TOML)

    def run_view(self, *words: str, given: bytes = b"") -> tuple[int, str, str]:
        """The status of trdp-view, what it prints and what it says on the error stream, if that is its input."""
        out, errors = io.StringIO(), io.StringIO()
        with mock.patch.object(sys, "stdin", io.TextIOWrapper(io.BytesIO(given))), contextlib.redirect_stdout(out), \
                contextlib.redirect_stderr(errors):
            try:
                status = trdp_view.main(list(words))
            except SystemExit as end:
                status = int(str(end.code))
        return status, out.getvalue(), errors.getvalue()

    def printed(self, capture: bytes, *words: str) -> Any:
        """The JSON that is printed of a capture at standard input."""
        status, told, errors = self.run_view("-", "--print", *words, given=capture)
        self.assertEqual((status, errors), (0, ""))
        return json.loads(told)

    def test_each_mark_is_there_once(self) -> None:
        """Rows of process data, of which each has what is wrong with it."""
        found = self.printed(pcapng(RAW_IP, sorted(CAUGHT)), "--toml", str(self.toml))
        self.assertEqual(found["rows"], ROWS)
        self.assertEqual(found["missing"], [300, 2106])
        self.assertEqual(found["sessions"], [])

    def test_messages(self) -> None:
        """A session with a repeat, a query and a confirmation, and one without an answer."""
        found = self.printed(pcap(RAW_IP, MESSAGES), "--toml", str(self.toml))
        self.assertEqual([(it["session"], it["com_id"], it["ended"]) for it in found["sessions"]],
                         [(str(FIRST), 300, True), (str(SECOND), 300, False)])
        told = [[(it["type"], it["source"], it["counter"]) for it in one["telegrams"]] for one in found["sessions"]]
        self.assertEqual(told, [[("Mr", DESK, 0), ("Mr", DESK, 1), ("Mq", DOORS, 0), ("Mc", DESK, 0)],
                                [("Mr", DESK, 0)]])
        value = [4, [0, 0, 0, 0], 0]
        rows = [(it["type"], it["com_id"], it["dest"], it["count"], it["value"], it["marks"]) for it in found["rows"]]
        self.assertEqual(rows, [
            ("Mc", 300, DOORS, 1, None, []), ("Mr", 300, DOORS, 2, value, []), ("Mr", 300, DOORS_2, 1, value, []),
            ("Mq", 301, DESK, 1, "", ["unknown"]), ("Mn", 302, DOORS_2, 1, "", ["unknown"])])

    def test_what_is_no_fault(self) -> None:
        """A follower that leads while the leader is silent is no second source, and a pull reply leaves no gap."""
        taken_over = [
            *[sent(at, DOORS, GROUP, Telegram("Pd", 2101, payload=CLOSED)) for at in (0, 100_000, 900_000)],
            *[sent(at, DOORS_2, GROUP, Telegram("Pd", 2101, payload=CLOSED)) for at in (500_000, 600_000)]]
        pulled = [sent(at, DOORS, DESK if kind == "Pp" else GROUP, Telegram(kind, 2104, counter))
                  for at, (kind, counter) in enumerate([("Pd", 0), ("Pd", 1), ("Pp", 2), ("Pd", 3), ("Pd", 5)])]
        found = self.printed(pcap(RAW_IP, sorted([*taken_over, *pulled])), "--toml", str(self.toml))
        self.assertEqual([(it["com_id"], it["type"], it["source"], it["gaps"], it["marks"]) for it in found["rows"]], [
            (2101, "Pd", DOORS, 0, []), (2101, "Pd", DOORS_2, 0, []),
            (2104, "Pd", DOORS, 1, []), (2104, "Pp", DOORS, 0, [])])

    def test_a_clock_that_is_set(self) -> None:
        """If the clock is set back in a capture, what still comes isn't silent, and what has ended is."""
        hour = 3_600_000_000
        caught = [sent(at * 100_000, DOORS, GROUP, Telegram("Pd", com_id, at)) for at in range(8) for com_id in (1, 2)]
        caught += [sent(at * 100_000 - hour, DOORS, GROUP, Telegram("Pd", 1, at)) for at in range(8, 16)]
        found = self.printed(pcap(RAW_IP, caught))["rows"]
        self.assertEqual([(it["com_id"], it["count"], it["median_us"], it["silent"]) for it in found],
                         [(1, 16, 100_000, False), (2, 8, 100_000, True)])

    def test_the_highest_counter(self) -> None:
        """After the highest counter comes 0. If the highest one is missing, that is a gap, and nothing began anew."""
        for counters, gaps in (((0xFFFFFFFE, 0xFFFFFFFF, 0, 1), 0), ((0xFFFFFFFE, 0, 1), 1)):
            caught = [sent(at, DOORS, GROUP, Telegram("Pd", 1, counter)) for at, counter in enumerate(counters)]
            self.assertEqual([it["gaps"] for it in self.printed(pcap(RAW_IP, caught))["rows"]], [gaps])

    def test_a_full_disk(self) -> None:
        """If nothing can be printed, a sentence and the status say so."""
        buffered = {name: text for name, text in os.environ.items() if name != "PYTHONUNBUFFERED"}
        with open("/dev/full", "w", encoding="ascii") as full:
            ran = subprocess.run([sys.executable, "-W", "error", "-m", "trdp_view", "-", "--print"], cwd=PYTHON,
                                 env=buffered, input=pcap(RAW_IP, CAUGHT[:1]), stdout=full, stderr=subprocess.PIPE)
        self.assertEqual((ran.returncode, ran.stderr), (1, b"trdp-view: No space left on device\n"))

    def test_captures(self) -> None:
        """The same telegrams in each form of a capture."""
        telegrams = [Telegram("Pd", 2101, counter, payload=CLOSED) for counter in range(3)]
        packets = [ip(DOORS, DESK, udp(it.write(), PD)) for it in telegrams]
        wanted = row(DOORS, DESK, 2101, "Pd", 3, median_us=100_000, worst_us=100_000, value=CLOSED.hex())

        def caught(framed: Callable[[bytes], bytes] = bytes) -> list[Caught]:
            return [Caught(at * 100_000, framed(it)) for at, it in enumerate(packets)]

        for name, capture in [
            ("raw IP", pcap(RAW_IP, caught())), ("Ethernet", pcap(ETHERNET, caught(ethernet))),
            ("a VLAN tag", pcap(ETHERNET, caught(lambda it: ethernet(it, 0x8100)))),
            ("two VLAN tags", pcap(ETHERNET, caught(lambda it: ethernet(it, 0x88A8, 0x8100)))),
            ("cooked", pcap(COOKED, caught(cooked))), ("cooked, version 2", pcap(COOKED_2, caught(cooked_2))),
            ("highest byte first", pcap(RAW_IP, caught(), ">")),
            ("nanoseconds", pcap(RAW_IP, caught(), parts=1_000_000_000)),
            ("pcapng", pcapng(RAW_IP, caught())), ("pcapng, highest byte first", pcapng(RAW_IP, caught(), ">")),
            ("pcapng, nanoseconds", pcapng(ETHERNET, caught(ethernet), parts_exponent=9)),
            ("cut off", pcapng(RAW_IP, [*caught(), Caught(300_000, packets[0])])[:-40]),
        ]:
            with self.subTest(name):
                self.assertEqual(self.printed(capture)["rows"], [wanted])

    def test_fragments(self) -> None:
        """A message in fragments that come in any order, beside one of which a fragment is missing."""
        telegram = Telegram("Mn", 300, payload=bytes(range(256)) * 20)
        body = udp(telegram.write(), MD)
        first, *others = in_fragments(DOORS, DESK, body, 1480)
        missing = in_fragments(DOORS_2, DESK, body, 1480)[1:]
        for parts in ([first, *others], [*others, first], [first, *missing, *others], [others[0], first, *others]):
            found = self.printed(pcap(RAW_IP, [Caught(0, it) for it in parts]))
            self.assertEqual(found["rows"], [row(DOORS, DESK, 300, "Mn", 1, value=telegram.payload.hex())])

    def test_what_cannot_be_read(self) -> None:
        """One sentence, and a status, of each capture and each word that is no good."""
        whole = pcapng(RAW_IP, CAUGHT)
        for given, said in [
            (b"", "-: this is empty, and no capture"), (b"no capture", "-: this is no capture in pcap or pcapng"),
            (pcap(195, CAUGHT), "-: a packet of link type 195, and known are 101, 228, 1, 113, 276"),
            (whole[:64] + b"\xff\xff\xff\x7f" + whole[68:], "-: this capture is damaged: a block of 2147483647 bytes"),
            (pcap(RAW_IP, CAUGHT)[:32] + b"\xff" * 8, "-: this capture is damaged: a packet of 4294967295 bytes"),
            # Its times count seconds and not microseconds.
            (pcapng(RAW_IP, CAUGHT[:1]).replace(b"\x09\0\1\0\6", b"\x09\0\1\0\0"),
             f"-: this capture is damaged: a packet {BEGIN_US}000000 microseconds after 1970"),
        ]:
            self.assertEqual(self.run_view("-", "--print", given=given), (1, "", f"trdp-view: {said}\n"))
        for words, status, said in [
            (["nowhere.pcap", "--print"], 1, "nowhere.pcap: No such file or directory"),
            (["-", "--print", "--toml", "nowhere.toml"], 1, "nowhere.toml: No such file or directory"),
            (["127.0.0.1", "--print"], 2, "--print wants a capture, and 127.0.0.1 is an address"),
            (["-", "--beside"], 2, "--beside wants an address, and '-' is a capture"),
            (["-", "--print", "--keep", "5"], 2, "--keep is of the page, and --print shows none"),
            (["127.0.0.1", "--interface", "lo"], 2, "--interface wants --group"),
        ]:
            ran, told, errors = self.run_view(*words)
            self.assertEqual((ran, told), (status, ""))
            self.assertTrue(errors.startswith(f"trdp-view: {said}"), errors)

    def test_a_capture_that_grows(self) -> None:
        """A program that writes into a pipe and is interrupted: what it wrote is printed."""
        line = [sys.executable, "-W", "error", "-m", "trdp_view", "-", "--print"]
        with subprocess.Popen(line, cwd=PYTHON, stdin=subprocess.PIPE, stdout=subprocess.PIPE) as view:
            assert view.stdin is not None and view.stdout is not None
            view.stdin.write(pcap(RAW_IP, CAUGHT[:2]))
            view.stdin.flush()
            pipe = view.stdin
            wait_until(lambda: is_drained(pipe) and is_asleep(view.pid))
            view.send_signal(signal.SIGINT)
            found = json.loads(view.stdout.read())
        self.assertEqual((view.returncode, found["rows"][0]["count"]), (0, 2))
