#!/usr/bin/env python3
"""What `trdpd serve` costs: processor time a turn and a datagram, against a bare loop over the same sockets.

    bench/serve.py [TURNS] [PROGRAM] [--save]     default: 200000 turns, crates/trdpd/out/trdpd (./run prove builds it)

bench/bare_loop.rs, which rustc builds, is that loop: the same clock, ports, turns and numbers of datagrams of the same
size, and no protocol. Each row is run up to three times, one program after the other, and the least processor time
(user and system) counts, without that of the turns in which nothing came or went. All is at 127.0.0.1: two processes
send what comes in as fast as they can, and what goes out reaches sockets that no one reads. With strace on PATH the
system calls are counted too. It takes some 20 seconds, twice as long on a busy machine.
"""
from __future__ import annotations

import os
import pathlib
import re
import shutil
import signal
import socket
import struct
import subprocess
import sys
import tempfile
import time
import zlib
from collections.abc import Sequence

import results

TOP = os.path.dirname(os.path.dirname(os.path.abspath(__file__)))
HOST = "127.0.0.1"
RUNS = 3                                          # of each row and program
ROW_SECONDS = 2                                   # after which a row isn't run again
OBJECTS = 256                                     # the most of one kind in a slot
PAYLOAD = 8                                       # bytes
SOL_UDP, UDP_SEGMENT = 17, 103                    # Linux: one send of many datagrams of the same size
BATCH = 10                                        # datagrams of one send
CALLS = 100                                       # calls that are made before their answers are read
FLOODERS = 2
# Seconds of processor time, and a program's totals.
Served = tuple[float, dict[str, int]]
FEW = 1000                                        # fewer datagrams than these say nothing


def telegram(kind: bytes, counter: int, com_id: int, payload: bytes) -> bytes:
    """A telegram of that type (Pd, Pr), topology counters 0."""
    head = struct.pack(">IH2s7I", counter, 0x0100, kind, com_id, 0, 0, len(payload), 0, 0, 0)
    return head + struct.pack("<I", zlib.crc32(head)) + payload + bytes(-len(payload) % 4)


# Counters are 16 apart, so that none is stale where many between them were lost.
def telegrams(com_id: int) -> list[bytes]:
    return [telegram(b"Pd", i * 16, com_id, i.to_bytes(PAYLOAD, "big")) for i in range(1000)]


REQUESTS = [telegram(b"Pr", i * 16, 100, b"") for i in range(1000)]
DAMAGED = [bytes([good[0] ^ 1]) + good[1:] for good in telegrams(200)]
PUTS = [b"put 1 %016x" % i for i in range(1000)]
PUBLISH = f"publish 100 0 {{cycle}} 0 0 0 {HOST}:{{sink}}"
SUBSCRIBE = "subscribe {com_id} 0 0.0.0.0 0.0.0.0 0.0.0.0 0 0 0 keep"


def subscriptions(count: int) -> list[str]:
    """Calls by which the last of that many subscriptions is for comId 200."""
    return [SUBSCRIBE.format(com_id=200 + count - 1 - i) for i in range(count)]


def publishers(cycle: int, count: int) -> list[str]:
    """Calls by which that many publishers have a value."""
    puts = [f"put {handle} {bytes(PAYLOAD).hex()}" for handle in range(1, count + 1)]
    return [PUBLISH.replace("{cycle}", str(cycle))] * count + puts


class Row:
    """What is measured: the calls before, the datagrams that come, at which port (0 process data, 2 control), and the
    bytes of the reply to each. Without datagrams it is the telegrams that are sent by themselves. `scale` is for the
    number of turns."""

    def __init__(self, name: str, calls: Sequence[str] = (), come: Sequence[bytes] = (), port: int = 0, reply: int = 0,
                 scale: float = 1.0) -> None:
        self.name, self.calls, self.come, self.port, self.reply, self.scale = name, calls, come, port, reply, scale


IDLE = Row("turn, nothing comes", scale=5)
WANTED = Row("telegram in, wanted", subscriptions(1), telegrams(200))
PULLED = Row("request in, reply out", publishers(0, 1), REQUESTS, reply=len(telegrams(200)[0]))
PUT = Row("put in, answer out", publishers(0, 1), PUTS, port=2, reply=len("0 done\n"))
CYCLIC = Row(f"telegram out, {OBJECTS} publishers", publishers(1000, OBJECTS))     # with few, idle turns drown them
ROWS = [
    IDLE,
    WANTED,
    Row("telegram in, for no one", subscriptions(1), telegrams(300)),
    Row("telegram in, frame check wrong", subscriptions(1), DAMAGED),
    PULLED,
    PUT,
    Row(f"telegram in, wanted, {OBJECTS} objects", subscriptions(OBJECTS), telegrams(200)),
    Row(f"telegram in, for no one, {OBJECTS}", subscriptions(OBJECTS), telegrams(9)),
    CYCLIC,
]


def free_ports(count: int) -> list[int]:
    """Numbers of that many UDP ports that no one has at the moment."""
    held = [socket.socket(socket.AF_INET, socket.SOCK_DGRAM) for _ in range(count)]
    for taken in held:
        taken.bind((HOST, 0))
    numbers = [taken.getsockname()[1] for taken in held]
    for taken in held:
        taken.close()
    return numbers


def wait_until_bound(port: int, process: int) -> None:
    """Waits until somebody has that UDP port, or the process has ended."""
    pattern = f":{port:04X} "
    while os.waitid(os.P_PID, process, os.WEXITED | os.WNOHANG | os.WNOWAIT) is None:
        with open("/proc/net/udp") as table:
            if any(pattern in line for line in table):
                return


def make_calls(port: int, calls: Sequence[str]) -> bool:
    """Makes the calls at a control port. Answers whether each took effect before the program ended."""
    with socket.socket(socket.AF_INET, socket.SOCK_DGRAM) as client:
        client.settimeout(5)
        client.connect((HOST, port))
        for first in range(0, len(calls), CALLS):
            batch = calls[first:first + CALLS]
            try:
                for call in batch:
                    client.send(call.encode())
                answers = [client.recv(65536) for _ in batch]
            except OSError:
                return False
            if not all(b"handle" in answer or b"done" in answer for answer in answers):
                sys.exit(f"a call was refused: {answers}")
    return True


def flood(port: int, come: Sequence[bytes], gate: tuple[int, int]) -> int:
    """Starts a process that sends the datagrams to a port, over and over, from the first byte in a pipe on until no one
    has the port. Answers its id."""
    child = os.fork()
    if child == 0:
        try:
            os.close(gate[1])
            if os.read(gate[0], 1):
                send_all(port, come)
        finally:
            os._exit(0)
    return child


def send_all(port: int, come: Sequence[bytes]) -> None:
    """Sends the datagrams to a port, over and over, until no one has it."""
    parts = [b"".join(come[i:i + BATCH]) for i in range(0, len(come), BATCH)]
    with socket.socket(socket.AF_INET, socket.SOCK_DGRAM) as out:
        out.connect((HOST, port))
        out.setsockopt(SOL_UDP, UDP_SEGMENT, len(come[0]))
        while True:
            for part in parts:
                out.send(part)


def end(child: int) -> None:
    """Ends a process that flood started."""
    os.kill(child, signal.SIGKILL)
    os.waitpid(child, 0)


def run(words: list[str], row: Row, ports: list[int], calls: Sequence[str]) -> Served:
    """Runs a program, makes the calls and lets the datagrams come. Answers seconds of processor time, and its totals
    without the calls; none where it had taken its turns before the calls were made."""
    gate = os.pipe()
    children = [flood(ports[row.port], row.come, gate) for _ in range(FLOODERS if row.come else 0)]
    ran = subprocess.Popen(words, stdout=subprocess.PIPE, text=True)
    assert ran.stdout is not None
    try:
        wait_until_bound(ports[2], ran.pid)
        called = make_calls(ports[2], calls)
        os.write(gate[1], bytes(FLOODERS))
        text = ran.stdout.read()
        _, status, usage = os.wait4(ran.pid, 0)
        ran.returncode = status
    finally:
        if ran.returncode is None:
            ran.kill()
        for child in children:
            end(child)
        ran.stdout.close()
        for pipe in gate:
            os.close(pipe)
    if status != 0:
        sys.exit(f"{words[0]} ended with {status}")
    words = text.split()
    totals = dict(zip(words[::2], map(int, words[1::2])))
    for name in ("taken", "offered"):
        totals[name] -= len(calls)
    return usage.ru_utime + usage.ru_stime, totals if called else {}


class Bench:
    """The programs, the sockets that no one reads, and where files are."""

    def __init__(self, program: str, folder: str) -> None:
        self.program, self.folder = program, folder
        self.bare = f"{folder}/bare_loop"
        subprocess.run(["rustc", "-O", "-o", self.bare, f"{TOP}/bench/bare_loop.rs"], check=True)
        self.sink = socket.socket(socket.AF_INET, socket.SOCK_DGRAM)
        self.sink.bind((HOST, 0))

    def serve(self, row: Row, turns: int, before: Sequence[str] = ()) -> Served:
        """Seconds of processor time, and the totals, of trdpd."""
        ports = free_ports(3)
        config = f"{self.folder}/node.toml"
        with open(config, "w") as text:
            text.write(f'[node]\naddress = "{HOST}"\npd_port = {ports[0]}\nmd_port = {ports[1]}\n[[slot]]\n'
                       f"publishers = {OBJECTS}\nsubscriptions = {OBJECTS}\ncontrol_port = {ports[2]}\n")
        calls = [call.replace("{sink}", str(self.sink.getsockname()[1])) for call in row.calls]
        return run([*before, self.program, "serve", config, "--turns", str(turns)], row, ports, calls)

    def loop(self, row: Row, turns: int, sends: int) -> Served:
        """The same of the bare loop, which sends that many telegrams by itself."""
        ports = free_ports(3)
        words = [turns, row.reply, sends, len(telegrams(200)[0]), self.sink.getsockname()[1], *ports]
        return run([self.bare, *map(str, words)], row, ports, ())


def counted(row: Row, totals: dict[str, int], turns: int) -> int:
    """How many of what the row measures there were."""
    if not totals:
        return 0
    if row.come:
        return totals["taken"]
    return totals["offered"] if row.calls else turns


def share(row: Row, seconds: float, totals: dict[str, int], turns: int, idle: float) -> float:
    """Seconds for one of what the row measures, without the turns in which nothing came or went."""
    busy = totals["taken"] if row.come else 0
    return (seconds - (turns - busy) * idle) / counted(row, totals, turns)


def compare(bench: Bench, row: Row, turns: int, idle: list[float]) -> list[float]:
    """The least seconds for one of what the row measures, of trdpd and of the bare loop."""
    best = [float("inf"), float("inf")]
    began = time.monotonic()
    ran = 0
    while ran == 0 or (ran < RUNS and time.monotonic() - began < ROW_SECONDS):
        seconds, totals = bench.serve(row, turns)
        count = counted(row, totals, turns)
        if count < FEW:                           # the calls before took too many of the turns
            turns *= 2
            continue
        best[0] = min(best[0], share(row, seconds, totals, turns, idle[0]))
        seconds, totals = bench.loop(row, turns, count if row.calls and not row.come else 0)
        if counted(row, totals, turns) >= FEW:
            best[1] = min(best[1], share(row, seconds, totals, turns, idle[1]))
        ran += 1
    return best


def measure(bench: Bench, turns: int) -> list[dict[str, object]]:
    """Prints a line for each row, and returns the rows."""
    found: list[dict[str, object]] = []
    print(f"{'microseconds of processor time':34}{'serve':>9}{'bare':>9}{'ratio':>8}{'serve/s':>12}")
    idle = [0.0, 0.0]
    for row in ROWS:
        best = compare(bench, row, int(turns * row.scale), idle)
        if row is IDLE:
            idle = best
        print(f"{row.name:34}{best[0] * 1e6:9.3f}{best[1] * 1e6:9.3f}{best[0] / best[1]:8.2f}{1 / best[0]:12.0f}",
              flush=True)
        found.append({"row": row.name, "serve_us": best[0] * 1e6, "bare_us": best[1] * 1e6})
    return found


def count_calls(bench: Bench, turns: int, words: list[str], row: Row) -> dict[str, int]:
    """The system calls as strace with these words counts them: by name."""
    log = f"{bench.folder}/strace"
    bench.serve(row, turns, ["strace", "-f", *words, "-c", "-o", log])
    with open(log) as text:
        rows = re.findall(r"^\s*[\d.]+\s+[\d.]+\s+\d+\s+(\d+)\s+(?:\d+\s+)?(\w+)$", text.read(), re.M)
    return {name: int(count) for count, name in rows if name != "total"}


def watch(bench: Bench, turns: int) -> dict[str, object]:
    """Prints the system calls of idle turns, and those for memory of few and of many turns, and returns them."""
    if not shutil.which("strace"):
        print("strace isn't there: system calls aren't counted")
        return {}
    idle = 10_000
    calls = count_calls(bench, idle, [], IDLE)
    often = {name: count for name, count in calls.items() if count >= idle / 10}
    print(f"system calls of {idle} idle turns:", *(f"{name} {count}" for name, count in often.items()))
    # Only these calls stop for strace, so that the turns stay fast.
    memory = ["--seccomp-bpf", "-e", "trace=memory"]
    found = []
    for row in (WANTED, PUT, CYCLIC):
        few, many = (sum(count_calls(bench, turns * times, memory, row).values()) for times in (1, 3))
        print(f"system calls for memory, {row.name}: {few} in {turns} turns, {many} in {turns * 3}", flush=True)
        found.append({"row": row.name, "turns": turns, "calls": few, "calls_of_three_times_as_many": many})
    return {"idle_turns": idle, "idle_calls": often, "memory": found}


def main() -> None:
    parser = results.arguments(__doc__)
    parser.add_argument("turns", nargs="?", type=int, default=200_000)
    parser.add_argument("program", nargs="?", type=pathlib.Path, default=results.PROGRAM)
    given = parser.parse_args()
    with tempfile.TemporaryDirectory() as folder:
        bench = Bench(str(given.program), folder)
        figures = {"rows": measure(bench, given.turns), "system_calls": watch(bench, given.turns)}
    if given.save:
        results.save("serve", figures, proved=results.is_proved(given.program))


if __name__ == "__main__":
    main()
