"""Words of command lines: what each can be, and one sentence for what can't be meant. And how names are printed.

Used by trdp_dump.py, trdp_lua.py, trdp_send.py, trdp_structs.py and examples/control/client.py.
"""
from __future__ import annotations

import argparse
import contextlib
import io
import ipaddress
import math
import os
import re
import socket
import sys
from collections.abc import Callable
from typing import NamedTuple, NoReturn

from trdp_slot import ConfigFault, Datasets

U32_MOST = 0xFFFFFFFF
I32_MOST = 0x7FFFFFFF
PORT_MOST = 0xFFFF
WAIT_MOST_US = 10**15
"""The longest wait that a command line asks for, in microseconds: thirty years."""
ANY_ADDRESS = "0.0.0.0"
"""The address that means all addresses of this machine, or none."""


class Interface(NamedTuple):
    """An interface of this machine, by an address that it has or by its number; by neither, that of the system's
    routes."""

    address: str = ANY_ADDRESS
    number: int = 0


class Words(argparse.ArgumentParser):
    """A command line. Words that can't be meant are answered by a sentence on the error stream, and status 2."""

    def error(self, message: str) -> NoReturn:
        """Ends the program by that sentence."""
        self.exit(2, f"{self.prog}: {message} (--help names all words)\n")


def number(low: int, high: int) -> Callable[[str], int]:
    """Reads a whole number in that range."""
    def read(text: str) -> int:
        if re.fullmatch("-?[0-9]{1,19}", text) and low <= int(text) <= high:
            return int(text)
        raise argparse.ArgumentTypeError(f"{shown(text)} is no whole number of {low} to {high}")
    return read


def seconds(text: str) -> float:
    """Reads a time in seconds, at most thirty years."""
    most = WAIT_MOST_US / 1_000_000
    try:
        found = float(text)
    except ValueError:
        found = math.nan
    if 0 <= found <= most:
        return found
    raise argparse.ArgumentTypeError(f"{shown(text)} is no time of 0 to {most:.0f} seconds")


def address(text: str) -> str:
    """Reads an address."""
    try:
        return str(ipaddress.IPv4Address(text))
    except ValueError:
        raise argparse.ArgumentTypeError(f"{shown(text)} is no address, as 127.0.0.1") from None


def is_group(home: str) -> bool:
    """Whether an address is that of a multicast group."""
    return ipaddress.IPv4Address(home).is_multicast


def group(text: str) -> str:
    """Reads the address of a group."""
    home = address(text)
    if is_group(home):
        return home
    raise argparse.ArgumentTypeError(f"{shown(text)} is no group, 224.0.0.0 to 239.255.255.255")


def interface(text: str) -> Interface:
    """Reads an interface of this machine: its name, or an address that it has."""
    # A name that can't be one, as of a zero byte, is a ValueError.
    with contextlib.suppress(OSError, ValueError):
        return Interface(number=socket.if_nametoindex(text))
    with contextlib.suppress(OSError, ValueError), socket.socket(socket.AF_INET, socket.SOCK_DGRAM) as asked:
        home = ipaddress.IPv4Address(text)
        # The system refuses an address that no interface has, but for that of all.
        asked.setsockopt(socket.IPPROTO_IP, socket.IP_MULTICAST_IF, home.packed)
        if not home.is_unspecified:
            return Interface(str(home))
    raise argparse.ArgumentTypeError(f"{shown(text)} is no interface of this machine, nor an address that one has")


def place(lowest_port: int) -> Callable[[str], tuple[str, int]]:
    """Reads a place, whose port isn't below that one."""
    def read(text: str) -> tuple[str, int]:
        home, colon, port = text.rpartition(":")
        if not colon:
            raise argparse.ArgumentTypeError(f"{shown(text)} has no port, as 127.0.0.1:17224")
        return address(home), number(lowest_port, PORT_MOST)(port)
    return read


def datasets_of(path: str) -> Datasets:
    """The datasets of a file. Raises OSError, and ValueError with the file."""
    try:
        return Datasets.from_toml(path)
    except ConfigFault:
        raise
    except ValueError as fault:
        raise ValueError(f"{path}: {fault}") from None


def shown(text: str) -> str:
    """A word in a sentence: not all of it where it is long."""
    return repr(text if len(text) <= 60 else text[:57] + "...")


def printable(text: str) -> str:
    """A text, in which what can't be printed is as Python writes it: no control character gets to a terminal."""
    return text if text.isprintable() else "".join(it if it.isprintable() else repr(it)[1:-1] for it in text)


def name_word(name: str) -> str:
    """A name as one word of a line: as Python writes a text if it has a space, a quote or what can't be printed."""
    is_plain = name.isprintable() and not any(it in " '\"\\" for it in name)
    return name if is_plain else repr(name).replace(" ", "\\x20")


def sentence(fault: OSError | ValueError) -> str:
    """What went wrong, in words, with the file or the place where that is known."""
    if isinstance(fault, OSError) and fault.strerror:
        return fault.strerror if fault.filename is None else f"{fault.filename}: {fault.strerror}"
    return str(fault)


def name_of(file: str) -> str:
    """How a tool calls itself: by its file's name, or by that of the command which installing it makes."""
    command = file.removesuffix(".py").replace("_", "-")
    return command if os.path.basename(sys.argv[0]) == command else file


def escape_output() -> None:
    """Has standard output escape the letters that its encoding lacks: else they are a fault."""
    if isinstance(sys.stdout, io.TextIOWrapper):
        sys.stdout.reconfigure(errors="backslashreplace")


def write_file(text: str) -> None:
    """Writes the text of a file to standard output, in UTF-8. Raises OSError."""
    if isinstance(sys.stdout, io.TextIOWrapper):
        sys.stdout.reconfigure(encoding="utf-8")
    print(text, end="", flush=True)


def drop_output() -> None:
    """Drops what standard output hasn't taken, where it takes nothing: else Python reports it after the end."""
    try:
        sys.stdout.flush()
    except (OSError, ValueError):
        nowhere = os.open(os.devnull, os.O_WRONLY)
        os.dup2(nowhere, 1)
        os.close(nowhere)
