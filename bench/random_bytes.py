#!/usr/bin/env python3
"""Random bytes at every port of a daemon: whether it lives, answers, and holds no more memory.

    bench/random_bytes.py [DATAGRAMS [SECONDS [SEED [PROGRAM]]]]
                          default: 200000 datagrams, at most 60 s, seed 1, crates/trdpd/out/trdpd

Starts `trdpd serve` at 127.0.0.1 with a port of each kind and a publisher that sends every millisecond, and sends
datagrams of 0 to 65507 bytes, the most that UDP carries, round after round: one at each port, and then a line at the
control port and one at the operator's, which must be answered. The daemon ends by itself, with its turns: then its
totals must have as many datagrams taken as were sent, and none lost, unread or without memory. The exit status is 0
where all of this holds.
"""
from __future__ import annotations

import os
import random
import resource
import socket
import subprocess
import sys
import tempfile
import time

TOP = os.path.dirname(os.path.dirname(os.path.abspath(__file__)))
HOME = "127.0.0.1"
MOST = 65507
# How many datagrams come before its memory is looked at: by then it has used all its buffers.
WARM = 1000
# Round the bounds of both headers and of telegrams.
LENGTHS = [0, 1, 39, 40, 41, 115, 116, 117, 1471, 1472, 1473, MOST - 1, MOST]
KINDS = ["pd", "md", "operator", "control"]


class Wrong(Exception):
    """What a daemon must not do."""


def free_ports(count: int) -> list[int]:
    """That many UDP ports that no one has."""
    sockets = [socket.socket(socket.AF_INET, socket.SOCK_DGRAM) for _ in range(count)]
    for it in sockets:
        it.bind((HOME, 0))
    ports = [it.getsockname()[1] for it in sockets]
    for it in sockets:
        it.close()
    return ports


def write_config(folder: str, ports: dict[str, int]) -> str:
    path = os.path.join(folder, "node.toml")
    with open(path, "w") as config:
        config.write(f"[node]\naddress = \"{HOME}\"\n")
        config.write("".join(f"{kind}_port = {ports[kind]}\n" for kind in KINDS[:3]))
        config.write(f"[[slot]]\npublishers = 1\nsubscriptions = 1\ncontrol_port = {ports['control']}\n")
    return path


def memory(pid: int) -> tuple[int, int]:
    """What a process holds, in KiB: in RAM, and of data at all."""
    with open(f"/proc/{pid}/status") as status:
        words = dict(line.split(":", 1) for line in status)
    in_ram, of_data = (int(words[key].split()[0]) for key in ("VmRSS", "VmData"))
    return in_ram, of_data


class Peer:
    """Sends to the ports of one daemon: random bytes from sockets of their own, and lines that must be answered."""

    def __init__(self, ports: dict[str, int]) -> None:
        self.ports, self.count, self.bytes, self.answers = ports, 0, 0, 0
        sockets = (socket.socket(socket.AF_INET, socket.SOCK_DGRAM) for _ in range(3))
        self.stranger, self.application, self.sink = sockets
        for it in (self.stranger, self.application, self.sink):
            it.bind((HOME, 0))
        self.stranger.setblocking(False)
        self.sink.setblocking(False)
        self.application.settimeout(60)

    def send(self, sender: socket.socket, kind: str, datagram: bytes) -> None:
        sender.sendto(datagram, (HOME, self.ports[kind]))
        self.count += 1
        self.bytes += len(datagram)

    def ask(self, kind: str, line: str, answer: str) -> None:
        """Sends a line, which must be answered so."""
        self.send(self.application, kind, line.encode())
        try:
            text = self.application.recv(MOST)
        except TimeoutError:
            raise Wrong(f"no answer to {line[:60]!r}") from None
        if text != answer.encode():
            raise Wrong(f"{line[:60]!r} is answered by {text[:60]!r}")
        self.answers += 1

    def drain(self) -> None:
        """Takes what came for the random bytes, which is nothing but line faults, and the publisher's telegrams."""
        for it in (self.stranger, self.sink):
            try:
                while text := it.recv(MOST):
                    if it is self.stranger and not text.startswith(b"line fault "):
                        raise Wrong(f"random bytes are answered by {text[:60]!r}")
            except BlockingIOError:
                pass

    def round(self, datagrams: list[bytes], value: bytes) -> None:
        for kind, datagram in zip(KINDS, datagrams):
            self.send(self.stranger, kind, datagram)
        self.ask("control", f"put 1 {value.hex() or '-'}", "0 done\n")
        self.ask("operator", "topology 0 0", "ok\n")
        self.drain()


def lengths_at_random(source: random.Random) -> list[int]:
    return [source.choice(LENGTHS) if source.random() < 0.3 else source.randint(0, MOST) for _ in KINDS]


def seconds_a_turn(program: str, config: str) -> float:
    """What an idle turn takes of a processor: it takes longer where others have that, and never less."""
    turns, before = 1_000_000, resource.getrusage(resource.RUSAGE_CHILDREN)
    subprocess.run([program, "serve", config, "--turns", str(turns)], check=True, stdout=subprocess.DEVNULL)
    after = resource.getrusage(resource.RUSAGE_CHILDREN)
    return (after.ru_utime + after.ru_stime - before.ru_utime - before.ru_stime) / turns


def await_ports(ran: subprocess.Popen[str], ports: dict[str, int]) -> None:
    """Waits until the daemon has its ports, or has ended."""
    home, end = socket.inet_aton(HOME)[::-1].hex().upper(), time.monotonic() + 60
    wanted = {f"{home}:{port:04X}" for port in ports.values()}
    while ran.poll() is None:
        with open("/proc/net/udp") as table:
            if wanted <= {line.split()[1] for line in table}:
                return
        if time.monotonic() > end:
            raise Wrong("it doesn't bind its ports")
        time.sleep(0.01)


def play(peer: Peer, pid: int, datagrams: int, seconds: int,
         source: random.Random) -> tuple[tuple[int, int], tuple[int, int], float]:
    """Sends that many datagrams within that many seconds; answers the memory before and after, and the seconds."""
    before, start = None, time.monotonic()
    peer.ask("control", f"publish 100 0 1000 0 0 0 {HOME}:{peer.sink.getsockname()[1]}", "0 handle 1\n")
    while peer.count < datagrams and time.monotonic() - start < seconds:
        datagrams_of_all = [source.randbytes(it) for it in lengths_at_random(source)]
        peer.round(datagrams_of_all, source.randbytes(source.randint(0, 1432)))
        if before is None and peer.count >= WARM:
            before = memory(pid)
    return before or memory(pid), memory(pid), time.monotonic() - start


def main(words: list[str]) -> None:
    datagrams, seconds, seed = (int(word) for word in (words + ["200000", "60", "1"][len(words):])[:3])
    program = os.path.abspath(words[3]) if len(words) > 3 else f"{TOP}/crates/trdpd/out/trdpd"
    ports = dict(zip(KINDS, free_ports(len(KINDS))))
    with tempfile.TemporaryDirectory() as folder:
        config = write_config(folder, ports)
        # Half as many again, since the machine may get faster meanwhile.
        turns = min(int(1.5 * seconds / seconds_a_turn(program, config)), 2**32 - 1)
        ran = subprocess.Popen([program, "serve", config, "--turns", str(turns)], stdout=subprocess.PIPE, text=True)
        try:
            await_ports(ran, ports)
            peer = Peer(ports)
            before, after, took = play(peer, ran.pid, datagrams, seconds, random.Random(seed))
            alive = ran.poll() is None
            totals = ran.communicate(timeout=100 * seconds)[0]
        finally:
            ran.kill()
    print(f"{peer.count} datagrams, {peer.bytes} bytes, {peer.answers} answers in {took:.0f} s; "
          f"seed {seed}, {turns} turns")
    print(f"KiB in RAM {before[0]}, then {after[0]}; KiB of data {before[1]}, then {after[1]}")
    print(totals, end="")
    words = totals.split()
    found = dict(zip(words[::2], map(int, words[1::2])))
    wanted = {"taken": peer.count, "lost": 0, "unread": 0, "memory": 0}
    if not alive or ran.returncode != 0 or any(found.get(key) != value for key, value in wanted.items()):
        raise Wrong(f"status {ran.returncode}, where totals with {wanted} were wanted")
    # The system counts a process's pages only roughly.
    if after[1] > before[1] or after[0] > before[0] + 256:
        raise Wrong("memory has grown")


if __name__ == "__main__":
    try:
        main(sys.argv[1:])
    except (Wrong, OSError) as fault:
        sys.exit(f"random_bytes.py: {fault}")
