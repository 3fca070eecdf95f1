#!/usr/bin/env python3
"""What a line costs at a control socket, beside one at a UDP control port, and what an application that doesn't read
receives.

    bench/control_lines.py [LINES] [NOTIFICATIONS] [PROGRAM] [--save]
                          default: 100000 100000 crates/trdpd/out/trdpd (./run prove builds it)

Two daemons at 127.0.0.1, one with control sockets and one with UDP control ports, are sent LINES lines `get 1` in
turns, five times each, of which 1 or 64 are unanswered at a time. Prints the median of the lines a second, as the
client sees them, and of the microseconds of processor time that the daemon takes for a line (user and system).

Then NOTIFICATIONS notifications of 1,000 bytes come to a slot whose application doesn't read, while its publisher sends
every 10 ms. A line says how many the application received when it read at last, how many were lost, and how many
telegrams of its publisher came. The exit status is 0 where every notification is in its order or counted in its place
and no telegram is missing, and else 1.
"""
from __future__ import annotations

import contextlib
import os
import pathlib
import re
import socket
import statistics
import struct
import subprocess
import sys
import tempfile
import time
import zlib
from collections.abc import Iterator

import results

HOST = "127.0.0.1"
ROUNDS = 5
WINDOWS = (1, 64)
ANSWER = b"0 refused NoHandle\n"
TICKS = os.sysconf("SC_CLK_TCK")
PAYLOAD = 1000
CYCLE = 0.01                                      # seconds
CREDIT = 50                                       # notifications that fit into the system's buffer of a port


def free_ports(count: int) -> list[int]:
    """Numbers of that many UDP ports that no one has at the moment."""
    held = [socket.socket(socket.AF_INET, socket.SOCK_DGRAM) for _ in range(count)]
    for taken in held:
        taken.bind((HOST, 0))
    numbers = [taken.getsockname()[1] for taken in held]
    for taken in held:
        taken.close()
    return numbers


class Node:
    """A daemon of two slots as a process, at control sockets of a folder or at UDP control ports."""

    def __init__(self, program: str, folder: str, at_paths: bool) -> None:
        pd, self.md, *self.controls = free_ports(4)
        self.folder = folder if at_paths else None
        path = os.path.join(folder, f"{pd}.toml")
        with open(path, "w") as file:
            file.write(f'[node]\naddress = "{HOST}"\npd_port = {pd}\nmd_port = {self.md}\n')
            file.writelines(f"[[slot]]\npublishers = 1\nlisteners = 1\ncontrol_port = {it}\n" for it in self.controls)
        words = [program, "daemon", path, *(["--controls", folder] if at_paths else [])]
        self.process = subprocess.Popen(words, stdout=subprocess.DEVNULL, stderr=subprocess.DEVNULL)

    def client(self, slot: int) -> socket.socket:
        """A client of a slot, whose daemon is there."""
        end = time.monotonic() + 5
        while time.monotonic() < end:
            kind = (socket.AF_INET, socket.SOCK_DGRAM) if self.folder is None else (socket.AF_UNIX, socket.SOCK_STREAM)
            made = socket.socket(*kind)
            made.settimeout(1)
            port = self.controls[slot]
            try:
                made.connect((HOST, port) if self.folder is None else f"{self.folder}/{port}")
                made.send(b"get 1\n")
                if made.recv(64):
                    return made
            except OSError:
                time.sleep(0.01)
            made.close()
        sys.exit("control_lines.py: the daemon doesn't answer")

    def used(self) -> float:
        """The processor seconds that it has used."""
        with open(f"/proc/{self.process.pid}/stat") as it:
            words = it.read().rpartition(")")[2].split()
        return (int(words[11]) + int(words[12])) / TICKS

    def end(self) -> None:
        """Ends it."""
        self.process.kill()
        self.process.wait()


def exchange(client: socket.socket, count: int, window: int) -> None:
    """Has `count` lines answered, of which at most `window` are unanswered at a time. Over a stream an answer may come
    in two parts."""
    size = len(ANSWER)
    for _ in range(window):
        client.send(b"get 1\n")
    came, said = 0, window
    while came < count * size:
        came += len(client.recv(65536))
        more = min(came // size + window, count) - said
        if more > 0:
            client.sendall(b"get 1\n" * more)
            said += more


def lines(nodes: dict[str, Node], count: int) -> list[dict[str, object]]:
    """Prints what a line costs at each node, and returns it."""
    rows: list[dict[str, object]] = []
    found: dict[tuple[str, int], list[tuple[float, float]]] = {}
    clients = {name: node.client(0) for name, node in nodes.items()}
    for _ in range(ROUNDS):
        for window in WINDOWS:
            for name, node in nodes.items():
                begin, used = time.monotonic(), node.used()
                exchange(clients[name], count, window)
                took, used = time.monotonic() - begin, node.used() - used
                found.setdefault((name, window), []).append((count / took, used / count * 1e6))
    for (name, window), rounds in sorted(found.items(), key=lambda it: it[0][1]):
        rate, cost = (statistics.median(it) for it in zip(*rounds))
        print(f"{name}, {window} unanswered: {rate:.0f} lines a second, {cost:.2f} microseconds of processor time each")
        rows.append({"port": name, "unanswered": window, "lines_per_second": rate, "us": cost})
    for client in clients.values():
        client.close()
    return rows


def notification(com_id: int, payload: bytes) -> bytes:
    """An `Mn` telegram."""
    head = struct.pack(">IH2s4Ii", 0, 0x0100, b"Mn", com_id, 0, 0, len(payload), 0).ljust(112, b"\0")
    return head + struct.pack("<I", zlib.crc32(head)) + payload


def call(client: socket.socket, line: str, answer: str) -> None:
    """Has a line answered so."""
    client.sendall(line.encode() + b"\n")
    said = client.recv(65536).decode()
    if answer not in said:
        sys.exit(f"control_lines.py: {line} is answered by {said}")


def texts(client: socket.socket) -> Iterator[bytes]:
    """The texts that come, without their ends."""
    left = b""
    while True:
        *whole, left = (left + client.recv(65536)).split(b"\n")
        yield from whole


def are_told(client: socket.socket, source: str, count: int) -> tuple[int, int]:
    """How many notifications the application receives, and how many were lost; ends the program where one is out of
    its place."""
    came = lost = 0
    for text in texts(client):
        if found := re.fullmatch(rb"lost (\d+)", text):
            lost += int(found[1])
        elif text == f"0 notified 1 {source} 300 - - {came + lost:08x}{'00' * (PAYLOAD - 4)}".encode():
            came += 1
        else:
            sys.exit(f"control_lines.py: behind {came} and {lost} that were lost came {text[:100]!r}")
        if came + lost >= count:
            break
    return came, lost


def losses(node: Node, count: int) -> dict[str, float]:
    """Has that many notifications come to an application that doesn't read; prints what became of them, and returns
    it."""
    application, fence = node.client(0), node.client(1)
    udp = (socket.AF_INET, socket.SOCK_DGRAM)
    with socket.socket(*udp) as sink, socket.socket(*udp) as device:
        sink.bind((HOST, 0))
        device.connect((HOST, node.md))
        call(application, "listen 300 0.0.0.0 0.0.0.0 0.0.0.0 - 0 0", "0 handle 1")
        call(application, f"publish 100 0 {CYCLE * 1e6:.0f} 0 0 0 {HOST}:{sink.getsockname()[1]}", "0 handle 2")
        call(application, "put 2 0a0b", "0 done")
        call(fence, "listen 301 0.0.0.0 0.0.0.0 0.0.0.0 - 0 0", "1 handle 1")
        counters = [counter_of(sink.recv(64))]
        begin, used = time.monotonic(), node.used()
        for number in range(count):
            device.send(notification(300, number.to_bytes(4, "big") + bytes(PAYLOAD - 4)))
            if number % CREDIT == CREDIT - 1:
                # What comes after them is heard by the slot beside, so that they were taken.
                device.send(notification(301, b""))
                fence.recv(4096)
                with contextlib.suppress(BlockingIOError):
                    while True:
                        counters.append(counter_of(sink.recv(64, socket.MSG_DONTWAIT)))
        took, used = time.monotonic() - begin, node.used() - used
        came, lost = are_told(application, "{}:{}".format(*device.getsockname()), count)
    missing = counters[-1] - counters[0] + 1 - len(counters)
    print(f"{count} notifications in {took:.1f} s, {used / count * 1e6:.1f} microseconds of processor time each: "
          f"{came} are told, {lost} lost; {len(counters)} telegrams of {took / CYCLE:.0f} cycles, {missing} missing")
    return {"notifications": count, "seconds": took, "us": used / count * 1e6, "received": came, "lost": lost,
            "telegrams": len(counters), "telegrams_missing": missing}


def counter_of(telegram: bytes) -> int:
    """The counter of a telegram of process data."""
    return int.from_bytes(telegram[:4], "big")


def main() -> int:
    parser = results.arguments(__doc__)
    parser.add_argument("lines", nargs="?", type=int, default=100_000)
    parser.add_argument("notifications", nargs="?", type=int, default=100_000)
    parser.add_argument("program", nargs="?", type=pathlib.Path, default=results.PROGRAM)
    given = parser.parse_args()
    if not given.program.exists():
        sys.exit(f"control_lines.py: {given.program} is missing: ./run prove builds it")
    with tempfile.TemporaryDirectory() as folder:
        nodes = {name: Node(str(given.program), folder, it)
                 for name, it in (("control socket", True), ("UDP port", False))}
        try:
            rows = lines(nodes, given.lines)
            lost = losses(nodes["control socket"], given.notifications)
        finally:
            for node in nodes.values():
                node.end()
    is_right = lost["received"] + lost["lost"] == given.notifications and lost["telegrams_missing"] == 0
    if given.save and is_right:
        results.save("control_lines", {"lines": rows, "losses": lost}, proved=results.is_proved(given.program))
    return 0 if is_right else 1


if __name__ == "__main__":
    sys.exit(main())
