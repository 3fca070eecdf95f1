#!/usr/bin/env python3
"""What trdp-view costs, and whether it loses what the system delivers.

    bench/view.py [SECONDS] [--save]      default: 600 seconds

Another process sends 5,000 telegrams a second, of 200 publishers, to the port that trdp-view reads, while one page is
open. What is printed: how many telegrams were sent in which time, how many trdp-view counted, how many the system
dropped at its socket, the share of a processor that it used, and its memory at half of the time and at the end. The
status is 1 if a telegram is missing that the system delivered. All is at 127.0.0.1.
"""
from __future__ import annotations

import json
import os
import pathlib
import socket
import subprocess
import sys
import threading
import time
import urllib.request
from collections.abc import Iterator
from functools import partial
from typing import Any

import results
from control_lines import free_ports
from daemons.nodes import CLOCK_OF, HOST, end_with, forked

PYTHON = results.TOP / "clients/python"
sys.path.insert(0, str(PYTHON))
from trdp_telegram import Telegram  # noqa: E402

A_SECOND, ROWS, PAYLOAD = 5_000, 200, bytes(64)
BURST = 10
"""How many telegrams are sent at once."""
SETTLE = 3.0
"""How many seconds trdp-view has to read what is left in the end."""


def telegrams(count: int) -> Iterator[bytes]:
    """That many telegrams, in turn of each row."""
    for number in range(count):
        yield Telegram("Pd", 1000 + number % ROWS, number // ROWS, payload=PAYLOAD).write()


def send(port: int, count: int, done: int) -> None:
    """Sends that many telegrams to a port, so many a second, and then a byte into a pipe."""
    with socket.socket(socket.AF_INET, socket.SOCK_DGRAM) as out:
        out.connect((HOST, port))
        begun = time.monotonic()
        for number, data in enumerate(telegrams(count)):
            if number % BURST == 0:
                time.sleep(max(0.0, begun + number / A_SECOND - time.monotonic()))
            out.send(data)
    os.write(done, b"\n")


class View:
    """trdp-view, as a process, with a page that is open."""

    def __init__(self, ports: list[int]) -> None:
        line = [sys.executable, "-m", "trdp_view", HOST, "--pd-port", str(ports[0]), "--md-port", str(ports[1])]
        self.process = subprocess.Popen(line, cwd=PYTHON, stdout=subprocess.PIPE, text=True,
                                        preexec_fn=partial(end_with, os.getpid()))
        assert self.process.stdout is not None
        self.address = self.process.stdout.readline().strip()
        self.events = 0
        threading.Thread(target=self.listen, daemon=True).start()

    def listen(self) -> None:
        """Takes the events, as a page does."""
        with urllib.request.urlopen(f"{self.address}events") as stream:
            for line in stream:
                self.events += line.startswith(b"data:")

    def network(self) -> Any:
        """What the page shows."""
        with urllib.request.urlopen(f"{self.address}network.json") as answer:
            return json.load(answer)

    def memory(self) -> float:
        """How many megabytes of memory it has."""
        status = pathlib.Path(f"/proc/{self.process.pid}/status").read_text("ascii")
        return int(status.partition("VmRSS:")[2].split()[0]) / 1024

    def used(self) -> float:
        """The seconds of processor time that it has used."""
        return time.clock_gettime(~self.process.pid << 3 | CLOCK_OF)


def drops_at(port: int) -> int:
    """How many datagrams the system dropped at a port."""
    rows = [line.split() for line in pathlib.Path("/proc/net/udp").read_text("ascii").splitlines()]
    return sum(int(it[-1]) for it in rows if it[1].endswith(f":{port:04X}"))


def measure(seconds: int) -> dict[str, Any]:
    """What it comes to."""
    ports = free_ports(2)
    view = View(ports)
    try:
        count = seconds * A_SECOND
        is_done, done = os.pipe()
        used, begun = view.used(), time.monotonic()
        with forked(partial(send, ports[0], count, done)):
            time.sleep(seconds / 2)
            half = view.memory()
            os.read(is_done, 1)
            took = time.monotonic() - begun
            share = (view.used() - used) / took
            time.sleep(SETTLE)
        end, shown, dropped = view.memory(), view.network(), drops_at(ports[0])
    finally:
        view.process.kill()
        view.process.wait()
    return {"seconds": took, "sent": count, "rows": len(shown["rows"]), "events": view.events,
            "counted": sum(it["count"] for it in shown["rows"]), "dropped": dropped,
            "processor": share, "half_mb": half, "end_mb": end}


def main() -> int:
    """Exit status 1 if a telegram is missing that the system delivered."""
    parser = results.arguments(__doc__)
    parser.add_argument("seconds", nargs="?", type=int, default=600)
    given = parser.parse_args()
    found = measure(given.seconds)
    lost = found["sent"] - found["counted"] - found["dropped"]
    print(f"{found['sent']} telegrams of {found['rows']} rows in {found['seconds']:.0f} s: {found['counted']} counted, "
          f"{found['dropped']} dropped by the system, {lost} lost")
    print(f"processor {found['processor']:.1%}, memory {found['half_mb']:.0f} MB at half of the time and "
          f"{found['end_mb']:.0f} MB at the end, {found['events']} events")
    if given.save:
        results.save("view", found, proved=False)
    return int(lost != 0)


if __name__ == "__main__":
    sys.exit(main())
