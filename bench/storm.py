#!/usr/bin/env python3
"""Whether one forged datagram has two ports of a daemon answer each other: it must not. As root:

    bench/storm.py [PROGRAM]                      default: crates/trdpd/out/trdpd (./run prove builds it)

A raw socket sends a line that is none to a control port or an operator's port, as if it came from another such port:
the port itself, the other one of the node, and that of a second node. All datagrams between these ports are counted for
half a second: the forged one, and one answer. The status is 0 where each case has two.
"""
from __future__ import annotations

import os
import socket
import struct
import subprocess
import sys
import tempfile
import time
from typing import IO

TOP = os.path.dirname(os.path.dirname(os.path.abspath(__file__)))
HOST = "127.0.0.1"
FIRST, SECOND = (28000, 28001), (28010, 28011)    # each node's operator's port and control port
CASES = [(FIRST[1], FIRST[1]), (FIRST[0], FIRST[0]), (FIRST[1], FIRST[0]), (FIRST[0], FIRST[1]),
         (FIRST[1], SECOND[1]), (FIRST[0], SECOND[0])]


def node(program: str, ports: tuple[int, int], first: int) -> tuple[subprocess.Popen[bytes], IO[str]]:
    """Starts a daemon with these ports, and two from that number on for its telegrams."""
    config = tempfile.NamedTemporaryFile("w", suffix=".toml")
    config.write(f'[node]\naddress = "{HOST}"\npd_port = {first}\nmd_port = {first + 1}\noperator_port = {ports[0]}\n'
                 f"[[slot]]\ncontrol_port = {ports[1]}\n")
    config.flush()
    words = [program, "daemon", config.name]
    return subprocess.Popen(words, stdout=subprocess.DEVNULL, stderr=subprocess.DEVNULL), config


def forge(source: int, to: int, payload: bytes) -> None:
    """Sends a datagram from the source port, whichever program has it."""
    udp = struct.pack(">HHHH", source, to, 8 + len(payload), 0) + payload
    with socket.socket(socket.AF_INET, socket.SOCK_RAW, socket.IPPROTO_UDP) as raw:
        raw.sendto(udp, (HOST, 0))


def counted(sniffer: socket.socket, seconds: float) -> int:
    """How many datagrams to one of the ports come meanwhile."""
    end, count = time.monotonic() + seconds, 0
    while True:
        sniffer.settimeout(max(0.001, end - time.monotonic()))
        try:
            packet = sniffer.recv(2048)
        except TimeoutError:
            return count
        to = struct.unpack(">H", packet[22:24])[0]
        count += to in FIRST + SECOND
        if time.monotonic() > end:
            return count


def main(words: list[str]) -> int:
    program = words[0] if words else f"{TOP}/crates/trdpd/out/trdpd"
    nodes = [node(program, FIRST, 28020), node(program, SECOND, 28030)]
    time.sleep(0.5)
    good = True
    with socket.socket(socket.AF_INET, socket.SOCK_RAW, socket.IPPROTO_UDP) as sniffer:
        for source, to in CASES:
            forge(source, to, b"no line")
            count = counted(sniffer, 0.5)
            good = good and count == 2
            print(f"forged from port {source} to port {to}: {count} datagrams")
    for process, _ in nodes:
        process.terminate()
        process.wait()
    return 0 if good else 1


if __name__ == "__main__":
    sys.exit(main(sys.argv[1:]))
