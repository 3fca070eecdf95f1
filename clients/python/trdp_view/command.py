"""The command line of trdp-view."""
from __future__ import annotations

import argparse
import contextlib
import errno
import functools
import ipaddress
import json
import os
import pathlib
import stat
import sys
import threading
from typing import BinaryIO

import trdp_ports
import trdp_words

from .captures import NoCapture
from .known import File
from .network import Network
from .page import Page
from .report import printed
from .server import Server
from .sources import Capture, Live, Source

NAME = "trdp-view"
KEEP_SECONDS = 300.0
POLL_SECONDS = 0.1
"""How long the server may take to notice that it is to end."""
# The words that only the ports of an address have, as argparse names them.
OF_PORTS = ("group", "interface", "beside")


@functools.cache
def parser() -> trdp_words.Words:
    """All words of the command line."""
    words = trdp_words.Words(prog=NAME, description="Shows on a page how the network differs from a configuration.")
    words.add_argument("source", metavar="SOURCE",
                       help="an address of this machine, as 10.0.0.2; or a capture, - for standard input")
    words.add_argument("--toml", metavar="FILE", help="a file with [[dataset]] and [[telegram]] tables")
    words.add_argument("--print", action="store_true", help="print what the page shows at a capture's end, in JSON")
    trdp_ports.add_words(words, "read")
    words.add_argument("--http-port", type=trdp_words.number(1, trdp_words.PORT_MOST),
                       help="the page's port at 127.0.0.1 (a free one)")
    words.add_argument("--keep", type=trdp_words.seconds, metavar="SECONDS",
                       help=f"what of the last seconds can be saved and plotted ({KEEP_SECONDS:.0f})")
    return words


def is_address(text: str) -> bool:
    """Whether a source is an address, and no capture."""
    with contextlib.suppress(ValueError):
        ipaddress.IPv4Address(text)
        return True
    return False


def parse(words: list[str] | None) -> argparse.Namespace:
    """The words of the command line: these, or those of the program."""
    line = parser()
    asked = line.parse_args(words)
    trdp_ports.check_words(line, asked)
    for word in OF_PORTS:
        if getattr(asked, word) and not is_address(asked.source):
            line.error(f"--{word} wants an address, and {trdp_words.shown(asked.source)} is a capture")
    if asked.print and is_address(asked.source):
        line.error(f"--print wants a capture, and {asked.source} is an address")
    for word in ("http_port", "keep"):
        if asked.print and getattr(asked, word) is not None:
            line.error(f"--{word.replace('_', '-')} is of the page, and --print shows none")
    return asked


def opened(path: str, stack: contextlib.ExitStack) -> BinaryIO:
    """The capture of that name. Raises OSError."""
    if path != "-":
        return stack.enter_context(open(path, "rb"))
    if sys.stdin is None:
        raise OSError(errno.EBADF, os.strerror(errno.EBADF), "standard input")
    return sys.stdin.buffer


def grows(stream: BinaryIO) -> bool:
    """Whether more may come while a capture is read, as from a pipe."""
    try:
        return not stat.S_ISREG(os.fstat(stream.fileno()).st_mode)
    except OSError:
        return False


def source_of(asked: argparse.Namespace, stack: contextlib.ExitStack) -> Source:
    """Where the telegrams come from, by the words of the command line. Raises OSError."""
    if not is_address(asked.source):
        stream = opened(asked.source, stack)
        return Capture(stream, (asked.pd_port, asked.md_port), grows(stream))
    return Live(trdp_ports.taker_of(asked.source, asked, stack))


def file_of(path: str | None) -> File:
    """What the file of that path says, if there is one. Raises OSError, and ValueError."""
    if path is None:
        return File()
    file = File(trdp_words.datasets_of(path))
    if not file.known:
        print(f"{NAME}: {path} has no [[telegram]] tables, so that each comId is unknown", file=sys.stderr)
    return file


def read_all(source: Source, network: Network) -> None:
    """Reads what comes until its end. Raises OSError, and ValueError."""
    for came in source.datagrams():
        with network.lock:
            network.add(came)


def title_of(asked: argparse.Namespace) -> str:
    """What the page calls what it shows."""
    if not is_address(asked.source):
        return "standard input" if asked.source == "-" else pathlib.PurePath(asked.source).name
    return " and ".join(dict.fromkeys([asked.source, *asked.group]))


def serve(asked: argparse.Namespace, stack: contextlib.ExitStack) -> None:
    """Serves the page until it is interrupted. Raises OSError, and ValueError."""
    file = file_of(asked.toml)
    source = source_of(asked, stack)
    network = Network(file, asked.md_port, KEEP_SECONDS if asked.keep is None else asked.keep)
    page = Page(network, source, title_of(asked))
    server = stack.enter_context(Server(asked.http_port or 0, page))
    stack.callback(page.is_closing.set)
    threading.Thread(target=server.serve_forever, args=(POLL_SECONDS,), daemon=True).start()
    stack.callback(server.shutdown)
    print(server.address, flush=True)
    read_all(source, network)
    # A capture has ended, and its page stays.
    threading.Event().wait()


def print_end(asked: argparse.Namespace, stack: contextlib.ExitStack) -> None:
    """Reads a capture, and prints what the page would show at its end."""
    file = file_of(asked.toml)
    source = source_of(asked, stack)
    network = Network(file, asked.md_port)
    # An interrupt ends a capture that grows.
    with contextlib.suppress(KeyboardInterrupt):
        read_all(source, network)
    print(json.dumps(printed(network, source.now_us()), indent=1), flush=True)
    if source.unread():
        print(f"{NAME}: {source.unread()} datagrams couldn't be read", file=sys.stderr)


def main(words: list[str] | None = None) -> int:
    """Exit status 0, 1 if a capture, a port or a file can't be read, 2 for words that can't be meant."""
    asked = parse(words)
    try:
        with contextlib.ExitStack() as stack:
            (print_end if asked.print else serve)(asked, stack)
    except NoCapture as fault:
        print(f"{NAME}: {asked.source}: {fault}", file=sys.stderr)
        return 1
    except (OSError, ValueError) as fault:
        print(f"{NAME}: {trdp_words.sentence(fault)}", file=sys.stderr)
        trdp_words.drop_output()
        return 1
    except KeyboardInterrupt:
        pass
    return 0
