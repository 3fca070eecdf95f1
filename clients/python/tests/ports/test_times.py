"""What a daemon does by the clock: that it rests, and for how long, and how often it prints its totals.

Nothing may come earlier than promised, nor more of it: that is bounded so that no other work on the machine matters.
That something comes, and in what time, has a margin, and is tried several times. All tests wait side by side.
"""
from __future__ import annotations

import os
import signal
import socket
import struct
import time
import unittest
from collections.abc import Callable
from concurrent.futures import Future, ThreadPoolExecutor
from itertools import pairwise

from test_edge import is_in, pid
from testing import CONTROL, MD, PD, Daemon, wait_until

DEVICE = "127.0.8.50"
CYCLE = 0.1
# For how many seconds a daemon is looked at that has nothing to do, and how many of a processor it may take meanwhile.
IDLE_SECONDS, IDLE_MOST = 2.0, 0.2
# How long what comes within a second is waited for, and how often at most something is tried that has a margin.
PATIENCE, TRIES = 20.0, 8
# Linux: the system says when each datagram came.
SO_TIMESTAMPNS = 35


def started(number: int, *words: str) -> Daemon:
    """A daemon at an address of its own, with a publisher's slot."""
    head = f'[node]\naddress = "127.0.8.{number}"\npd_port = {PD}\nmd_port = {MD}\n[[slot]]\npublishers = 1\n'
    return Daemon(f"{head}control_port = {CONTROL}\n", words=words)


def asked(number: int, *lines: str) -> list[str]:
    """What the daemon at that address answers to these lines."""
    with socket.socket(socket.AF_INET, socket.SOCK_DGRAM) as client:
        client.settimeout(PATIENCE)
        client.connect((f"127.0.8.{number}", CONTROL))
        answers = []
        for line in lines:
            client.send(line.encode())
            answers.append(client.recv(65536).decode())
    return answers


def next_telegram(device: socket.socket, seconds: float) -> tuple[int, float]:
    """The counter of the next telegram that comes within some time, and when it came, though it is read later."""
    device.settimeout(seconds)
    data, told, _, _ = device.recvmsg(65536, 64)
    (_, _, stamp), = told
    whole, nanoseconds = struct.unpack("qq", stamp)
    return int.from_bytes(data[:4], "big"), whole + nanoseconds / 1e9


def telegrams(number: int, seconds: float) -> list[float]:
    """When the telegrams of a new publisher of that node come, within some time from the first one on."""
    with socket.socket(socket.AF_INET, socket.SOCK_DGRAM) as device:
        device.bind((DEVICE, 0))
        device.setsockopt(socket.SOL_SOCKET, SO_TIMESTAMPNS, 1)
        start = time.monotonic()
        publish = f"publish 100 0 {int(CYCLE * 1e6)} 0 0 0 {DEVICE}:{device.getsockname()[1]}"
        answers = asked(number, publish, "put 1 0a0b")
        assert answers == ["0 handle 1\n", "0 done\n"], answers
        came: list[float] = []
        end = start + PATIENCE
        while (left := end - time.monotonic()) > 0:
            try:
                counter, moment = next_telegram(device, left)
            except TimeoutError:
                break
            assert counter == len(came), f"{counter} is the counter of telegram {len(came)}"
            came.append(moment)
            if counter == 0:
                end = time.monotonic() + seconds
        # The turn that takes the call may have read its clock just before.
        most = int((time.monotonic() - start) / CYCLE) + 1
    assert len(came) <= most, f"{len(came)} telegrams, at most {most} are due"
    return came


def processor_seconds(daemon: Daemon) -> float:
    """The processor time that the daemon has taken."""
    with open(f"/proc/{pid(daemon)}/stat") as file:
        words = file.read().rpartition(")")[2].split()
    return (int(words[11]) + int(words[12])) / os.sysconf("SC_CLK_TCK")


def lines_of(daemon: Daemon) -> int:
    """How many lines of totals it has written."""
    return daemon.path.with_suffix(".errors").read_text().count("\ntaken ")


def keep_a_cycle() -> None:
    """A publisher of 100 ms never sends too often, and in three seconds nearly all that are due, mostly one by one.

    A daemon that rests twice as long sends as many, but two at a time.
    """
    seconds, least, steady = 3.0, 25, 20
    found = []
    for _ in range(TRIES):
        daemon = started(51)
        try:
            # A turn that had begun before may have read its clock long before it takes the call.
            wait_until(lambda: is_in(daemon, "S"))
            came = telegrams(51, seconds)
        finally:
            daemon.close()
        apart = [CYCLE / 2 < after - before < CYCLE * 1.5 for before, after in pairwise(came)]
        found.append((len(came), sum(apart)))
        if len(came) >= least and sum(apart) >= steady:
            return
    wanted = (least, steady)
    raise AssertionError(f"{found}: telegrams in {seconds} s, and how many a cycle apart; {wanted} was wanted once")


def rest_while_idle() -> None:
    """A daemon that has nothing to do takes next to no processor time, also after a datagram."""
    daemon = started(52)
    try:
        used = []
        for _ in range(TRIES):
            assert asked(52, "get 1") == ["0 refused NoHandle\n"]
            before = processor_seconds(daemon)
            time.sleep(IDLE_SECONDS)
            used.append(processor_seconds(daemon) - before)
            if used[-1] < IDLE_MOST:
                return
        raise AssertionError(f"{used} s of a processor in {IDLE_SECONDS} s each")
    finally:
        daemon.close()


def tell_totals_by_the_second() -> None:
    """The totals of each second come not before it is over, and those of two seconds within ten times as many."""
    start = time.monotonic()
    daemon = started(53, "--totals", "1")
    try:
        lines = 0
        while lines < 2:
            time.sleep(0.01)
            lines = lines_of(daemon)
            passed = time.monotonic() - start
            assert lines <= passed, f"{lines} lines within {passed} s"
            assert passed < 20, f"{lines} lines in {passed} s"
    finally:
        daemon.close()


def tell_totals_once_behind_a_pause() -> None:
    """A daemon that stood still for some seconds makes up for no line: it prints one, and a second later the next."""
    start = time.monotonic()
    daemon = started(54, "--totals", "1")
    try:
        wait_until(lambda: lines_of(daemon) > 0, PATIENCE)
        os.kill(pid(daemon), signal.SIGSTOP)
        wait_until(lambda: is_in(daemon, "T"))
        ran = time.monotonic() - start
        time.sleep(3)
        goes_on = time.monotonic()
        os.kill(pid(daemon), signal.SIGCONT)
        time.sleep(0.5)
        lines = lines_of(daemon)
        # While it stands still it reads no clock, and otherwise no two lines are closer than a second by its clock.
        most = int(ran) + 1 + int(time.monotonic() - goes_on)
        assert lines <= most, f"{lines} lines, at most {most} are due"
        wait_until(lambda: lines_of(daemon) > lines, PATIENCE)
    finally:
        daemon.close()


class Times(unittest.TestCase):
    """Each test runs from the start of all, and is called when its turn comes."""

    pool: ThreadPoolExecutor
    running: dict[Callable[[], None], Future[None]]

    @classmethod
    def setUpClass(cls) -> None:
        works = [keep_a_cycle, rest_while_idle, tell_totals_by_the_second, tell_totals_once_behind_a_pause]
        cls.pool = ThreadPoolExecutor(len(works))
        cls.addClassCleanup(cls.pool.shutdown)
        cls.running = {work: cls.pool.submit(work) for work in works}

    def test_a_publisher_keeps_its_cycle(self) -> None:
        # rule: publisher.cycle: telegrams come one cycle apart, and never more often
        self.running[keep_a_cycle].result()

    def test_an_idle_daemon_rests(self) -> None:
        self.running[rest_while_idle].result()

    def test_totals_come_by_the_second(self) -> None:
        self.running[tell_totals_by_the_second].result()

    def test_a_pause_gives_one_line_of_totals(self) -> None:
        self.running[tell_totals_once_behind_a_pause].result()
