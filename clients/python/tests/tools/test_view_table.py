"""trdp_dump.py --table: the rows in a terminal."""
from __future__ import annotations

import fcntl
import os
import pathlib
import pty
import re
import socket
import struct
import subprocess
import sys
import tempfile
import termios
import unittest

from made_capture import BEGIN_US
from test_view_print import CAUGHT, TOML
from testing import MD, PD, PYTHON, wait_until
from trdp_ports import datagram_of
from trdp_slot import Datasets
from trdp_telegram import Telegram
from trdp_view.known import File
from trdp_view.network import Network
from trdp_view.table import Wanted, lines_of

DUMP, SOURCE = "127.0.8.27", "127.0.8.28"
DOORS = "[4, [0, 0, 0, 0], 0]"
# The cells of the telegrams that test_view_print.py makes, 400 ms after the first one: state, comId, name, source,
# count, worst time, gaps, age and value.
CELLS = [
    ("never seen", "300", "ask", "", "0", "", "", "", ""),
    ("never seen", "2106", "never sent", "", "0", "", "", "", ""),
    ("unknown", "666", "", "10.0.0.9", "1", "", "0", "0.4 s", "0102"),
    ("no value", "2102", "", "10.0.0.1", "3", "100.0 ms", "0", "0.2 s", DOORS),
    ("silent, two sources", "2103", "speed", "10.0.0.1", "2", "50.0 ms", "0", "0.3 s", "[[1, 2]]"),
    ("silent, two sources", "2103", "speed", "10.0.0.4", "1", "", "0", "0.4 s", "[[1, 2]]"),
    ("counters", "2104", "", "10.0.0.2", "1", "", "0", "0.4 s", "ff"),
    ("headerFcs", "2105", "", "10.0.0.2", "2", "", "0", "0.3 s", "[[1, 2]]"),
    ("ok", "2101", "doors", "10.0.0.1", "5", "200.0 ms", "1", "0.0 s", DOORS),
]
SHOWN = (0, 1, 3, 4, 6, 9, 10, 11, 12)


class Table(unittest.TestCase):
    """The lines, and the terminal."""

    def setUp(self) -> None:
        folder = tempfile.TemporaryDirectory()
        self.addCleanup(folder.cleanup)
        self.toml = pathlib.Path(folder.name) / "node.toml"
        self.toml.write_text(TOML)

    def test_lines(self) -> None:
        """The lines of rows of which each has what is wrong with it."""
        network = Network(File(Datasets.from_toml(self.toml)), 17225)
        for after_us, packet in sorted(CAUGHT):
            if packet[9] == 17 and packet[22:24] == (17224).to_bytes(2, "big"):
                came = datagram_of(packet, BEGIN_US + after_us)
                assert came is not None
                network.add(came)
        lines = lines_of(network, Wanted(), BEGIN_US + 400_000)
        self.assertEqual([tuple(line.cells[it] for it in SHOWN) for line in lines], CELLS)
        self.assertTrue(lines[4].text().startswith("silent, two sourc~        2103  Pd    speed           10.0.0.1  "))
        some = lines_of(network, Wanted([2101, 2106], ["Pd"]), BEGIN_US + 400_000)
        self.assertEqual([it.cells[1] for it in some], ["2101"])

    def test_a_terminal(self) -> None:
        """A terminal shows what comes, until q is pressed."""
        screen, terminal = pty.openpty()
        self.addCleanup(os.close, screen)
        fcntl.ioctl(terminal, termios.TIOCSWINSZ, struct.pack("4H", 20, 180, 0, 0))
        line = [sys.executable, "-W", "error", str(PYTHON / "trdp_dump.py"), DUMP, "--table", "--toml", str(self.toml),
                "--pd-port", str(PD), "--md-port", str(MD)]
        known = os.environ | {"TERM": "xterm"}
        dump = subprocess.Popen(line, stdin=terminal, stdout=terminal, stderr=terminal, env=known)
        os.close(terminal)
        self.addCleanup(dump.wait)
        self.addCleanup(dump.kill)
        os.set_blocking(screen, False)
        shown = ""

        def shows(pattern: str) -> bool:
            nonlocal shown
            try:
                shown += os.read(screen, 65536).decode()
            except (BlockingIOError, OSError):
                pass
            return re.search(pattern, shown, re.DOTALL) is not None

        wait_until(lambda: shows("never sent"))
        with socket.socket(socket.AF_INET, socket.SOCK_DGRAM) as out:
            out.bind((SOURCE, 0))
            out.sendto(Telegram("Pd", 666, payload=b"\1\2").write(), (DUMP, PD))
        # What was there before in the same place isn't drawn again.
        wait_until(lambda: shows(f"{SOURCE}.*0102"))
        os.write(screen, b"q")
        wait_until(lambda: shows("") and dump.poll() is not None)
        self.assertEqual(dump.returncode, 0)

    def test_words(self) -> None:
        """Where no table can be shown, a sentence says why."""
        for words, status, said in [
            (["--table", "--count", "1"], 2, "--count is of lines, and --table shows none"),
            (["--table"], 1, "--table wants a terminal, and standard output is none"),
        ]:
            line = [sys.executable, "-W", "error", str(PYTHON / "trdp_dump.py"), DUMP, *words]
            ran = subprocess.run(line, capture_output=True, text=True, timeout=60)
            self.assertEqual((ran.returncode, ran.stdout), (status, ""))
            self.assertTrue(ran.stderr.startswith(f"trdp_dump.py: {said}"), ran.stderr)
