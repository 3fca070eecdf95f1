"""What becomes of a daemon whose standard output or standard error is slow, full or gone: it goes on; and what it
reports there of losses.

All tests wait side by side. What has to come within some time has a margin of ten, and is tried once.
"""
from __future__ import annotations

import contextlib
import fcntl
import os
import pty
import re
import select
import termios
import time
import unittest
from collections.abc import Callable, Iterator
from concurrent.futures import Future, ThreadPoolExecutor

from test_times import asked, telegrams
from testing import CONTROL, MD, PD, Daemon, wait_until

# The least that a pipe holds, in bytes.
PIPE = 4096
# How long what comes within a second is waited for.
PATIENCE = 10.0
LINE = re.compile(r"taken \d+ offered \d+ lost \d+ unread \d+ memory \d+\n")
LOSS = re.compile(r"lost (\d+) since the last line, the latest from (.*) to (\S+): (.*)\n")


def config(number: int) -> str:
    """A node at an address of its own, with a publisher's slot."""
    head = f'[node]\naddress = "127.0.8.{number}"\npd_port = {PD}\nmd_port = {MD}\n[[slot]]\npublishers = 2\n'
    return f"{head}control_port = {CONTROL}\n"


@contextlib.contextmanager
def full_pipe() -> Iterator[tuple[int, int]]:
    """The two ends of a pipe that takes nothing more."""
    back, front = os.pipe()
    try:
        fcntl.fcntl(front, fcntl.F_SETPIPE_SZ, PIPE)
        assert os.write(front, b"x" * PIPE) == PIPE
        yield back, front
    finally:
        os.close(back)
        os.close(front)


def some_of(descriptor: int) -> str:
    """What comes next at a descriptor; it is waited for."""
    ready, _, _ = select.select([descriptor], [], [], PATIENCE)
    assert ready, f"nothing came within {PATIENCE} s"
    return os.read(descriptor, PIPE).decode()


def keeps_on(number: int, daemon: Daemon) -> None:
    """The daemon sends what is due, over some lines of totals, and answers each call."""
    assert len(telegrams(number, 2.5)) >= 3
    assert asked(number, "get 7", "unpublish 1") == ["0 refused NoHandle\n", "0 done\n"]
    assert daemon.process.poll() is None


def by_a_full_output() -> None:
    """No one reads standard output: the lines are left out, and come again when somebody does."""
    with full_pipe() as (back, front):
        daemon = Daemon(config(61), words=("--totals", "1"), output=front)
        try:
            keeps_on(61, daemon)
            assert some_of(back) == "x" * PIPE
            text = some_of(back)
            while text.count("\n") < 2:
                text += some_of(back)
            assert re.fullmatch(f"({LINE.pattern})+", text), text
        finally:
            daemon.close()


def by_a_full_error() -> None:
    """No one reads standard error: not even the first words stop it."""
    with full_pipe() as (_, front):
        daemon = Daemon(config(62), errors=front)
        try:
            keeps_on(62, daemon)
        finally:
            daemon.close()


def by_a_full_device() -> None:
    """The disk of both streams is full."""
    with open("/dev/full", "wb") as device:
        daemon = Daemon(config(63), words=("--totals", "1"), output=device.fileno(), errors=device.fileno())
        try:
            keeps_on(63, daemon)
        finally:
            daemon.close()


def by_a_reader_that_ended() -> None:
    """Who read both streams is gone."""
    back, front = os.pipe()
    try:
        daemon = Daemon(config(64), words=("--totals", "1"), output=front, errors=front)
        try:
            os.close(back)
            keeps_on(64, daemon)
        finally:
            daemon.close()
    finally:
        os.close(front)


def by_closed_streams() -> None:
    """It was started without either stream."""
    daemon = Daemon(config(65), words=("--totals", "1"), output=None, errors=None)
    try:
        keeps_on(65, daemon)
    finally:
        daemon.close()


def by_a_stopped_terminal() -> None:
    """Somebody typed Ctrl-S; and after Ctrl-Q the lines come again."""
    back, front = pty.openpty()
    try:
        termios.tcflow(front, termios.TCOOFF)
        daemon = Daemon(config(66), words=("--totals", "1"), output=front)
        try:
            keeps_on(66, daemon)
            termios.tcflow(front, termios.TCOON)
            text = some_of(back)
            # A terminal gives the end of a line after it.
            while "\n" not in text:
                text += some_of(back)
            assert LINE.match(text.replace("\r\n", "\n")), text
        finally:
            daemon.close()
    finally:
        os.close(back)
        os.close(front)


def with_a_reason_for_losses() -> None:
    """What the system refuses is reported with its reason, at most once a second."""
    place = "255.255.255.255:18224"
    start = time.monotonic()
    daemon = Daemon(config(67), words=("--totals", "1"))

    def losses() -> list[tuple[str, ...]]:
        return LOSS.findall(daemon.path.with_suffix(".errors").read_text())

    try:
        assert asked(67, f"publish 100 0 20000 0 0 0 {place}", "put 1 0a") == ["0 handle 1\n", "0 done\n"]
        wait_until(lambda: len(losses()) > 1, 20)
        told = losses()
        passed = time.monotonic() - start
        assert len(told) <= passed + 1, f"{len(told)} lines in {passed} s"
        assert {it[1:] for it in told} == {("process data", place, "Permission denied (os error 13)")}, told
        wait_until(lambda: sum(int(it[0]) for it in told) <= daemon.totals().get("lost", 0), 20)
    finally:
        daemon.close()


WORKS: list[Callable[[], None]] = [
    by_a_full_output, by_a_full_error, by_a_full_device, by_a_reader_that_ended, by_closed_streams,
    by_a_stopped_terminal,
    with_a_reason_for_losses,
]


class Log(unittest.TestCase):
    """Each test runs from the start of all, and is called when its turn comes."""

    pool: ThreadPoolExecutor
    running: dict[Callable[[], None], Future[None]]

    @classmethod
    def setUpClass(cls) -> None:
        cls.pool = ThreadPoolExecutor(len(WORKS))
        cls.addClassCleanup(cls.pool.shutdown)
        cls.running = {work: cls.pool.submit(work) for work in WORKS}

    def test_a_full_output_stops_nothing(self) -> None:
        self.running[by_a_full_output].result()

    def test_a_full_error_stops_nothing(self) -> None:
        self.running[by_a_full_error].result()

    def test_a_full_device_stops_nothing(self) -> None:
        self.running[by_a_full_device].result()

    def test_a_reader_that_ended_stops_nothing(self) -> None:
        self.running[by_a_reader_that_ended].result()

    def test_closed_streams_stop_nothing(self) -> None:
        self.running[by_closed_streams].result()

    def test_a_stopped_terminal_stops_nothing(self) -> None:
        self.running[by_a_stopped_terminal].result()

    def test_losses_have_a_reason(self) -> None:
        self.running[with_a_reason_for_losses].result()
