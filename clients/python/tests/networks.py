"""Networks of their own, in which tests bind the same addresses and ports side by side."""
from __future__ import annotations

import contextlib
import ctypes
import fcntl
import os
import socket
import struct
import subprocess
import sys

# How a program gets a network of its own: as root, or as a user whose system lets users have namespaces. Such a user
# has root's rights in the new namespaces until `begin` drops them.
WAYS = (["unshare", "--net"], ["unshare", "--user", "--map-current-user", "--keep-caps", "--net"])
PR_CAP_AMBIENT, PR_CAP_AMBIENT_CLEAR_ALL = 47, 4


def start_loopback() -> None:
    """Has the network's loopback go."""
    with socket.socket(socket.AF_INET, socket.SOCK_DGRAM) as any_socket:
        fcntl.ioctl(any_socket, 0x8914, struct.pack("16sh14x", b"lo", 0x41))  # SIOCSIFFLAGS: up and running


def begin(line: list[str]) -> None:
    """Becomes that command in this new network, with the rights that this user had before."""
    start_loopback()
    ctypes.CDLL(None).prctl(PR_CAP_AMBIENT, PR_CAP_AMBIENT_CLEAR_ALL, 0, 0, 0)
    os.execv(line[0], line)


def beginning(line: list[str]) -> list[str]:
    """The command that has a Python program call `begin` with a command."""
    return [sys.executable, __file__, *line]


def way() -> list[str] | None:
    """The words before `beginning` that make a network; None where this user can't have one."""
    for words in WAYS:
        with contextlib.suppress(FileNotFoundError):
            line = [*words, *beginning([sys.executable, "-c", "pass"])]
            if subprocess.run(line, capture_output=True).returncode == 0:
                return words
    return None


if __name__ == "__main__":
    begin(sys.argv[1:])
