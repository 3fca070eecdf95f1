"""Datagrams, packets and command lines by chance: the tools read each, or say in a line what is wrong.

Each run draws again, and prints the seed; TRDP_SEED=N in the environment draws the same again.
"""
from __future__ import annotations

import argparse
import concurrent.futures
import contextlib
import random
import socket
import struct
import subprocess
import sys
import time
import types
import zlib
from typing import Any
from unittest import mock

import trdp_dump
import trdp_ports
import trdp_send
import trdp_telegram
from test_traps import DUMP, GROUP, PLACE, SOURCE, Case, packet_of, run
from testing import PYTHON, SEED, TOP
from trdp_slot import Datasets

sys.path.insert(0, str(TOP / "examples/control"))
import client  # noqa: E402

DATAGRAMS, LINES, PROGRAMS = 100_000, 5_000, 50
# How often the lines are drawn, until each status came.
ROUNDS = 10

# Pieces of command lines.
PLACES = [PLACE, SOURCE, "localhost", f"{SOURCE}:99999", ":", "127.0.8.27:5", "x:17224", "0.0.0.0:1", "[::1]:17224"]
NUMBERS = ["0", "1", "-1", "3", "17224", "17225", "65535", "65536", "4294967295", "4294967296", "9" * 30, "0x10", "1e3",
           "1.5", "nan", "inf", "x", "", " 7", "١"]
TEXTS = ["-", "--", "-h", "--help", "00", "0d0", "xyz", "new", "0a0b0c0d-0000-0000-0000-000000000001", "node.toml",
         "bad.toml", "deep.toml", "none.toml", "gone.toml", ".", "out.pcapng", "/dev/full", "[4, [0, 0, 0, 0], 0]",
         "[1, [300], 0]", "((", "\0", "\udcff", "\ud800", "é", "x" * 70, "%s", "%(prog)s", "get 1", "#", "Pd", "Pr",
         "Mn", "Mr", "Pe", "\n", "\x1b[2J"]
OPTIONS = {
    "trdp_send.py": ["--type", "--com-id", "--counter", "--etb", "--op-trn", "--reply-com-id", "--reply-address",
                     "--session", "--status", "--time-us", "--source-uri", "--dest-uri", "--data", "--value", "--toml",
                     "--dataset", "--from", "--ttl", "--cycle-us", "--count", "--c", "--jump"],
    "trdp_dump.py": ["--pd-port", "--md-port", "--toml", "--com-id", "--type", "--pcapng", "--time", "--beside",
                     "--count", "--for-us", "--group", "--interface", "--p", "--jump"],
    "client.py": ["--stay", "--stay", "--jump"],
}
FITTING = {
    "--type": ["Pd", "Mn", "Mr"], "--value": ["[4, [0, 0, 0, 0], 0]", "[1, [300], 0]"], "--data": ["0d"],
    "--session": ["new"],
    "--toml": ["node.toml", "node.toml", "bad.toml", "gone.toml"], "--from": [f"{SOURCE}:0"],
    "--pcapng": ["out.pcapng"], "--group": [GROUP, GROUP, SOURCE], "--interface": ["lo", SOURCE, "gone0"],
    "--ttl": ["1", "255"],
}
# What is put in together.
GROUPS = {
    "trdp_send.py": [["--toml", "node.toml", "--value", "[4, [0, 0, 0, 0], 0]"], ["--cycle-us", "1000", "--count", "3"],
                     ["--type", "Mr", "--session", "new"]],
    "trdp_dump.py": [["--toml", "none.toml"], ["--group", GROUP, "--interface", "lo"]],
    "client.py": [["put 1 -", "#"], ["./gone", "0", "#"]],
}
GOOD = {
    "trdp_send.py": [PLACE, "--com-id", "2101"], "trdp_dump.py": [DUMP, "--for-us", "1"],
    "client.py": [SOURCE, "9", "0", "get 1"],
}


def random_words(chance: random.Random, name: str) -> list[str]:
    """A command line by chance: a good one with some words put in, changed or left out; or any words."""
    words = list(GOOD[name]) if chance.randrange(4) else []
    for _ in range(chance.randrange(5)):
        word = chance.choice(chance.choice([PLACES, NUMBERS, TEXTS, OPTIONS[name], OPTIONS[name], GOOD[name]]))
        at = chance.randrange(len(words) + 1)
        if words and chance.randrange(4) == 0:
            words[at % len(words)] = word
        elif chance.randrange(3) == 0:
            words += chance.choice(GROUPS[name])
        else:
            values = chance.choice([NUMBERS + TEXTS, FITTING.get(word, ["1"])])
            words[at:at] = [word, chance.choice(values)] if word.startswith("--") else [word]
    if words and chance.randrange(6) == 0:
        del words[chance.randrange(len(words))]
    return words


def interrupt(*_: object) -> None:
    """Ends a program that would go on, as its user does."""
    raise KeyboardInterrupt


class Quiet(socket.socket):
    """A socket that sends nothing."""

    def sendto(self, *_: object) -> int:
        return 0

    def connect(self, *_: object) -> None:
        pass


class Random(Case):
    """Bytes and words by chance."""

    def setUp(self) -> None:
        super().setUp()
        self.chance = random.Random(SEED)

    def test_datagrams_and_packets(self) -> None:
        datasets = Datasets.from_toml("node.toml")
        everything = trdp_dump.Filter(frozenset(), frozenset())
        telegrams = [trdp_telegram.Telegram(kind, 2101, payload=b"\x01\x02\x03\x04", source_uri=b"door").write()
                     for kind in trdp_telegram.PD_KINDS + trdp_telegram.MD_KINDS]
        kinds = {"None": 0, "fault": 0, "telegram": 0}
        for _ in range(DATAGRAMS):
            packet = self.random_packet(telegrams)
            datagram = trdp_ports.datagram_of(packet)
            if datagram is None:
                kinds["None"] += 1
                continue
            line = trdp_dump.dump_line(datagram, bool(self.chance.randrange(2)), everything, datasets)
            self.assertTrue(line is not None and line.isprintable(), (SEED, packet))
            kinds["fault" if line is not None and line.startswith("fault=") else "telegram"] += 1
        self.assertGreater(min(kinds.values()), DATAGRAMS // 100, kinds)

    def random_packet(self, telegrams: list[bytes]) -> bytes:
        """Any bytes; or a packet with a telegram, of which bytes may be changed, cut or added."""
        if self.chance.randrange(4) == 0:
            return self.chance.randbytes(self.chance.randrange(80))
        data = bytearray(self.chance.choice(telegrams))
        for _ in range(self.chance.randrange(3)):
            data[self.chance.randrange(len(data))] = self.chance.randrange(256)
        if self.chance.randrange(4) == 0:
            struct.pack_into("<I", data, 36, zlib.crc32(data[:36]))
        del data[self.chance.choice([0, len(data), len(data), len(data)]):]
        packet = bytearray(packet_of(bytes(data)) + self.chance.randbytes(self.chance.choice([0, 0, 9])))
        if self.chance.randrange(4) == 0:
            packet[self.chance.choice([0, 24, 25, self.chance.randrange(len(packet))])] = self.chance.randrange(256)
        return bytes(packet[:self.chance.choice([len(packet), len(packet), self.chance.randrange(len(packet) + 1)])])

    def test_words_in_one_process(self) -> None:
        print(f"command lines by chance: seed {SEED}", file=sys.stderr)
        stubs: list[contextlib.AbstractContextManager[Any]] = [
            mock.patch.object(time, "sleep", interrupt), mock.patch.object(socket, "socket", Quiet),
            mock.patch.object(trdp_ports, "Beside", trdp_ports.Ports), mock.patch.object(client, "Datagrams", Mute),
            mock.patch.object(client, "Connection", Mute), mock.patch.object(sys, "stdin", None),
            mock.patch.object(trdp_ports.Ports, "take", lambda *_: interrupt()),
            # argparse looks for a file at each text.
            mock.patch.object(argparse, "_", str),
        ]
        with contextlib.ExitStack() as stack:
            for stub in stubs:
                stack.enter_context(stub)
            for tool, name in [(trdp_send, "trdp_send.py"), (trdp_dump, "trdp_dump.py"), (client, "client.py")]:
                statuses: set[int] = set()
                # A status that is rare may not come among the first lines.
                for _ in range(ROUNDS):
                    statuses |= {self.status_of(tool, name) for _ in range(LINES)}
                    if len(statuses) >= 3:
                        break
                self.assertEqual(statuses, {0, 1, 2}, name)

    def status_of(self, tool: types.ModuleType, name: str) -> int:
        """The status of a tool with words by chance."""
        words = random_words(self.chance, name)
        if any(it.startswith("--p") for it in words):
            self.write_files()
        try:
            status, said = run(tool, words)
        except Exception as fault:
            raise AssertionError(f"seed {SEED}: {name} {words}: {fault!r}") from fault
        if status == 2:
            self.assertTrue(said.startswith(f"{name}: "), (SEED, words, said))
        return status

    def test_words_of_programs(self) -> None:
        with concurrent.futures.ThreadPoolExecutor(5) as pool:
            list(pool.map(self.run_program, [random_words(self.chance, name) for name in self.names()], self.names()))

    def names(self) -> list[str]:
        """The names of the tools that run."""
        return [list(GOOD)[number % len(GOOD)] for number in range(PROGRAMS)]

    def run_program(self, words: list[str], name: str) -> None:
        """A tool with these words ends by itself, or goes on; by no traceback."""
        path = TOP / "examples/control" / name if name == "client.py" else PYTHON / name
        # What no command line has is left out.
        typed = [it.encode("utf-8", "replace").replace(b"\0", b"") for it in words]
        line: list[str | bytes] = ["timeout", "-s", "KILL", "2", sys.executable, "-W", "error", str(path), *typed]
        ran = subprocess.run(line, stdin=subprocess.DEVNULL, capture_output=True, timeout=60)
        self.assertNotIn(b"Traceback", ran.stderr, (SEED, name, words))
        self.assertIn(ran.returncode, (0, 1, 2, 128 + 9, -9), (SEED, name, words))


class Mute:
    """A control port at which no one says anything, until its user ends the program."""

    line_most = 65507
    is_over = is_behind = False

    def __init__(self, *_: object, **__: object) -> None:
        pass

    def close(self) -> None:
        """Ends nothing."""

    def end_lines(self) -> None:
        """Ends nothing."""

    def send_line(self, line: str) -> None:
        """Sends nothing."""
        line.encode("utf-8", "surrogateescape")

    def read_line(self, time_us: int) -> str | None:
        """Says something, or nothing, for a short while."""
        raise KeyboardInterrupt
