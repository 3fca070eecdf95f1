"""Nodes and floods, which are processes of a measurement. None of them outlives the script, however the script ends."""
from __future__ import annotations

import contextlib
import ctypes
import os
import pathlib
import signal
import socket
import struct
import subprocess
import sys
import tempfile
import time
import zlib
from collections.abc import Callable, Iterator, Sequence
from functools import partial
from typing import IO, Self

from control_lines import free_ports, notification

TOP = pathlib.Path(__file__).resolve().parents[2]
HOST = "127.0.0.1"
DAEMON, SERVE = ("daemon",), ("serve", "--turns", "4294967295")
PATIENCE = 10                                     # seconds in which a node begins, and in which it answers
CLOCK_OF = 2                                      # Linux: the clock of a process that counts its processor time
SET_PDEATHSIG = 1                                 # Linux, prctl: the signal that comes when the parent ends
SET_TIMERSLACK = 29                               # Linux, prctl: how late a sleep may end
SLACK = 1_000                                     # nanoseconds: TimerSlackNSec= of the unit
PRIORITY = 10                                     # under SCHED_FIFO, as docs/SUPERVISION.md says
LIBC = ctypes.CDLL(None)
PROCESSORS = sorted(os.sched_getaffinity(0), reverse=True)


def end_with(parent: int) -> None:
    """Has the system kill this process when its parent ends, even if a signal ends the parent."""
    LIBC.prctl(SET_PDEATHSIG, signal.SIGKILL, 0, 0, 0)
    if os.getppid() != parent:
        os._exit(1)


def begin_program(parent: int, is_real_time: bool) -> None:
    """Gives this process the timer slack that the unit gives, has it end with the script, and may put it under
    SCHED_FIFO."""
    end_with(parent)
    LIBC.prctl(SET_TIMERSLACK, SLACK, 0, 0, 0)
    if is_real_time:
        put_first([0])


def put_first(processes: Sequence[int]) -> None:
    """Puts these processes under SCHED_FIFO."""
    for process in processes:
        os.sched_setscheduler(process, os.SCHED_FIFO, os.sched_param(PRIORITY))


def go_first() -> None:
    """Puts this process under SCHED_FIFO, but not the processes that it starts."""
    try:
        os.sched_setscheduler(0, os.SCHED_FIFO | os.SCHED_RESET_ON_FORK, os.sched_param(PRIORITY))
    except PermissionError:
        sys.exit("--real-time needs root, or CAP_SYS_NICE: the system refuses SCHED_FIFO")


def is_bound(port: int) -> bool:
    """Whether a program has that UDP port."""
    with open("/proc/net/udp", encoding="ascii") as table:
        return any(line.split()[1].endswith(f":{port:04X}") for line in table)


def ask(client: socket.socket, line: str) -> str:
    """Sends a line, and returns its answer."""
    try:
        client.send(line.encode())
        return client.recv(128).decode().strip()
    except TimeoutError:
        sys.exit(f"nothing answers {line!r} within {PATIENCE} seconds")


class Started:
    """A program as a process, and a client of each of its control ports."""

    def __init__(self, words: Sequence[str], controls: list[int], said: IO[str] | None = None,
                 is_real_time: bool = False) -> None:
        self.controls = controls
        self.clients: list[socket.socket] = []
        self.process = subprocess.Popen(words, stdin=said or subprocess.DEVNULL, stdout=subprocess.DEVNULL,
                                        stderr=subprocess.DEVNULL,
                                        preexec_fn=partial(begin_program, os.getpid(), is_real_time))
        try:
            self.clients += [self.client(it) for it in controls]
        except BaseException:
            self.end()
            raise

    def __enter__(self) -> Self:
        return self

    def __exit__(self, *_: object) -> None:
        self.end()

    def client(self, port: int) -> socket.socket:
        """A client of a control port, after its first answer: the node is there."""
        end = time.monotonic() + PATIENCE
        while not is_bound(port):
            if self.process.poll() is not None:
                sys.exit(f"{self.process.args!r} ended with status {self.process.returncode}")
            if time.monotonic() > end:
                sys.exit(f"{self.process.args!r} did not bind port {port} within {PATIENCE} seconds")
            time.sleep(0.01)
        made = socket.socket(socket.AF_INET, socket.SOCK_DGRAM)
        made.connect((HOST, port))
        made.settimeout(PATIENCE)
        ask(made, "get 1")
        return made

    def call(self, line: str, slot: int = 0) -> str:
        """Makes a call of that slot's application, and returns its answer."""
        return ask(self.clients[slot], line)

    def used(self) -> float:
        """The seconds of processor time that it has used (user and system)."""
        return time.clock_gettime(~self.process.pid << 3 | CLOCK_OF)

    def end(self) -> None:
        """Ends it, even if it was stopped."""
        self.process.send_signal(signal.SIGCONT)
        self.process.kill()
        self.process.wait()
        for client in self.clients:
            client.close()


class Node(Started):
    """A node with that many slots, each with these quotas and a control port, as a process."""

    def __init__(self, program: str, words: Sequence[str], slots: int, quotas: str = "publishers = 1\n",
                 is_real_time: bool = False) -> None:
        self.pd, self.md, *controls = free_ports(2 + slots)
        with tempfile.NamedTemporaryFile("w", suffix=".toml") as config:
            config.write(f'[node]\naddress = "{HOST}"\npd_port = {self.pd}\nmd_port = {self.md}\n')
            config.writelines(f"[[slot]]\n{quotas}control_port = {it}\n" for it in controls)
            config.flush()
            # Once it answers, it has read that file.
            super().__init__([program, words[0], config.name, *words[1:]], controls, is_real_time=is_real_time)


@contextlib.contextmanager
def forked(action: Callable[[], None]) -> Iterator[int]:
    """Has another process do this meanwhile. Returns its number."""
    parent = os.getpid()
    child = os.fork()
    if child == 0:
        try:
            # Ctrl-C ends the parent, which then ends this process.
            signal.signal(signal.SIGINT, signal.SIG_IGN)
            signal.signal(signal.SIGTERM, signal.SIG_DFL)
            end_with(parent)
            action()
        finally:
            os._exit(0)
    try:
        yield child
    finally:
        for number in (signal.SIGCONT, signal.SIGKILL):
            os.kill(child, number)
        os.waitpid(child, 0)


def send_on(port: int, datagram: bytes) -> None:
    """Sends a datagram to a port until no program has that port."""
    with socket.socket(socket.AF_INET, socket.SOCK_DGRAM) as out, contextlib.suppress(OSError):
        out.connect((HOST, port))
        while True:
            out.send(datagram)


@contextlib.contextmanager
def flooding(port: int, datagram: bytes, processes: int = 1) -> Iterator[list[int]]:
    """Has that many processes send a datagram to a port without end meanwhile. Returns their numbers."""
    with contextlib.ExitStack() as stack:
        yield [stack.enter_context(forked(partial(send_on, port, datagram))) for _ in range(processes)]


@contextlib.contextmanager
def apart(processes: Sequence[int]) -> Iterator[None]:
    """Keeps this process and each of these on a processor of its own meanwhile, if there are as many."""
    try:
        if len(processes) < len(PROCESSORS):
            for process, processor in zip([0, *processes], PROCESSORS):
                os.sched_setaffinity(process, {processor})
        yield
    finally:
        os.sched_setaffinity(0, PROCESSORS)


def process_data(com_id: int, payload: bytes, counter: int = 0) -> bytes:
    """A `Pd` telegram."""
    head = struct.pack(">IH2s7I", counter, 0x0100, b"Pd", com_id, 0, 0, len(payload), 0, 0, 0)
    return head + struct.pack("<I", zlib.crc32(head)) + payload + bytes(-len(payload) % 4)


# What a flood sends, by its name: the port of the node, and the datagram.
FLOODS: dict[str, tuple[Callable[[Node], int], bytes]] = {
    "other slot": (lambda node: node.controls[1], b"get 1"),
    "process data": (lambda node: node.pd, process_data(300, bytes(8))),
    "message data": (lambda node: node.md, notification(300, bytes(8))),
}
