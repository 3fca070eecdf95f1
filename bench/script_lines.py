#!/usr/bin/env python3
"""How fast trdpd plays scripts: lines a second of processor time, and the most memory that it held.

    bench/script_lines.py [LINES] [PROGRAM] [--save]
                                 default: 1000000 lines, crates/trdpd/out/trdpd (./run prove builds it)

Two scripts of that many lines over examples/node.toml are played from a file to a file: puts alone, and a mix of
moments, puts, datagrams that a subscription takes, and gets. The telegrams' frame checks are zlib's.
"""
from __future__ import annotations

import os
import pathlib
import struct
import subprocess
import sys
import tempfile
import time
import zlib
from collections.abc import Iterable, Iterator

import results

TOP = os.path.dirname(os.path.dirname(os.path.abspath(__file__)))
OPEN = ["call 0 publish 100 0 100000 0 0 0 10.0.0.2:17224", "call 0 subscribe 200 0 0.0.0.0 0.0.0.0 0.0.0.0 0 0 0 keep"]


def telegram(counter: int, payload: bytes) -> bytes:
    """A process data telegram of comId 200."""
    head = struct.pack(">IHHIIIIIII", counter, 0x0100, 0x5064, 200, 0, 0, len(payload), 0, 0, 0)
    return head + struct.pack("<I", zlib.crc32(head)) + payload + bytes(-len(payload) % 4)


def puts(count: int) -> Iterator[str]:
    yield from OPEN
    for i in range(count - 2):
        yield f"call 0 put 1 {i % 65536:04x}"


def mixed(count: int) -> Iterator[str]:
    yield from OPEN
    for i in range(count - 2):
        if i % 4 == 0:
            yield f"moment {i * 1000}"
        elif i % 4 == 1:
            yield f"call 0 put 1 {i % 65536:04x}"
        elif i % 4 == 2:
            yield f"pd 10.0.0.2:17224 10.0.0.1:17224 {telegram(i * 16, struct.pack('>Q', i)).hex()}"
        else:
            yield "call 0 get 2"


def peak(pid: int) -> int:
    """The most memory that a process has held so far, in KiB."""
    with open(f"/proc/{pid}/status") as status:
        return next((int(line.split()[1]) for line in status if line.startswith("VmHWM:")), 0)


def play(program: pathlib.Path, lines: Iterable[str]) -> tuple[float, int, int]:
    """Plays the lines; answers seconds of processor time, the most memory in KiB, and the lines that came out."""
    with tempfile.TemporaryFile() as script, tempfile.TemporaryFile() as out:
        for line in lines:
            script.write(line.encode() + b"\n")
        script.seek(0)
        ran = subprocess.Popen([program, "run", f"{TOP}/examples/node.toml"], stdin=script, stdout=out)
        memory, ended = 0, 0
        while not ended:
            memory = max(memory, peak(ran.pid))
            time.sleep(0.002)
            ended, status, usage = os.wait4(ran.pid, os.WNOHANG)
        if status != 0:
            sys.exit(f"trdpd ended with {status}")
        out.seek(0)
        return usage.ru_utime + usage.ru_stime, memory, sum(1 for _ in out)


def main() -> None:
    parser = results.arguments(__doc__)
    parser.add_argument("lines", nargs="?", type=int, default=1_000_000)
    parser.add_argument("program", nargs="?", type=pathlib.Path, default=results.PROGRAM)
    given = parser.parse_args()
    rows = []
    print(f"{'script':8}{'lines':>10}{'seconds':>9}{'lines/s':>12}{'peak MiB':>10}{'lines out':>11}")
    for name, lines in (("puts", puts), ("mixed", mixed)):
        for size in (given.lines // 10, given.lines):
            seconds, memory, out = play(given.program, lines(size))
            rows.append({"script": name, "lines": size, "seconds": seconds, "peak_kib": memory, "lines_out": out})
            print(f"{name:8}{size:10}{seconds:9.2f}{size / seconds:12.0f}{memory / 1024:10.1f}{out:11}")
    if given.save:
        results.save("script_lines", {"rows": rows}, proved=results.is_proved(given.program))


if __name__ == "__main__":
    main()
