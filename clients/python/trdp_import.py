#!/usr/bin/env python3
"""Makes the configuration of a node from the XML device configuration of another TRDP stack.

    trdp_import.py doors.xml -o doors
    trdp_import.py desk.xml -o desk --interface eth0 --hosts hosts
    trdp_import.py desk.xml -o desk --slot video=2601,3101 --slot log=2602 --bytes 2602 --port 19000 --skeleton

The file is a device configuration of IEC 61375-2-3, as TCNopen reads it. The folder gets

    node.toml  the configuration of the node
    SLOT.lines the calls of the application in each slot, with a name before each
    qos.nft    rules for nft, which give telegrams their DSCP and TTL

and with --skeleton an application for each slot, in Python and in C. What the node does not do as the file says is
printed as `loss: line 12, ..`, and what else there is to know as `note: line 12, ..`. docs/FROM_TCNOPEN.md says what
becomes of each part of the file.
"""
from __future__ import annotations

import argparse
import contextlib
import functools
import gc
import io
import re
import sys
from collections.abc import Iterator

import trdp_words
from trdp_device import (FILE_MOST, OPERATOR_AFTER, DeviceFault, Hosts, Report, Wanted, WrongWords, files_of,
                         import_device, read_hosts, skeletons_of, write_folder)
from trdp_slot import SLOTS_MOST

NAME = trdp_words.name_of("trdp_import.py")
LOSSES = 3
"""The exit status if anything is lost."""


def com_ids(text: str) -> frozenset[int]:
    """Reads comIds with commas between them."""
    read = trdp_words.number(0, trdp_words.U32_MOST)
    return frozenset(map(read, text.split(",")))


def slot(text: str) -> tuple[str, frozenset[int]]:
    """Reads the name of a slot and its comIds."""
    name, _, numbers = text.partition("=")
    if not re.fullmatch("[A-Za-z_][A-Za-z0-9_]{0,199}", name):
        raise argparse.ArgumentTypeError(f"{trdp_words.shown(name)} is no name of a slot: letters, digits and _")
    return name, com_ids(numbers)


@functools.cache
def parser() -> trdp_words.Words:
    """All words of the command line."""
    words = trdp_words.Words(prog=NAME, description="Makes the configuration of a node from the XML device "
                                                    "configuration of another TRDP stack.")
    words.add_argument("file", metavar="DEVICE.xml", help="a device configuration of IEC 61375-2-3")
    words.add_argument("-o", dest="folder", metavar="FOLDER", required=True,
                       help="where the files go; the folder must not exist, or be empty")
    words.add_argument("--interface", metavar="NAME", help="which interface, if there are several")
    words.add_argument("--hosts", metavar="FILE", help="addresses of host names, in lines as /etc/hosts has them")
    words.add_argument("--slot", type=slot, action="append", default=[], metavar="NAME=COMID,..",
                       help="a slot with the telegrams of these comIds; may be repeated (one slot with all)")
    words.add_argument("--bytes", type=com_ids, action="append", default=[], metavar="COMID,..",
                       help="telegrams whose payload is any bytes, and no value of a dataset; may be repeated")
    words.add_argument("--port", type=trdp_words.number(1, trdp_words.PORT_MOST - OPERATOR_AFTER), default=18000,
                       metavar="N", help="the control port of the first slot (18000)")
    words.add_argument("--skeleton", action="store_true", help="an application for each slot, in Python and in C, too")
    return words


def parse(words: list[str] | None) -> argparse.Namespace:
    """The words of the command line: these, or those of the program."""
    asked = parser().parse_args(words)
    if not asked.folder:
        parser().error("-o has no folder")
    names = [name.lower() for name, _ in asked.slot]
    if len(names) > SLOTS_MOST:
        parser().error(f"a node has at most {SLOTS_MOST} slots, and not {len(names)}")
    if len(set(names)) < len(names):
        parser().error("two slots have one name, except for case")
    return asked


def wanted_of(asked: argparse.Namespace) -> Wanted:
    """What the command line asks for."""
    return Wanted(asked.interface, dict(asked.slot) or None, frozenset().union(*asked.bytes), asked.port)


@contextlib.contextmanager
def faults_of(path: str) -> Iterator[None]:
    """Has the fault of a file name it."""
    try:
        yield
    except DeviceFault as fault:
        raise ValueError(f"{path}: {fault}") from None


def read(path: str) -> bytes:
    """The bytes of a file; of one that is too long, one more than may be read."""
    with open(path, "rb") as file:
        return file.read(FILE_MOST + 1)


def hosts_of(path: str | None) -> Hosts:
    """The addresses of a file; none without a file."""
    if path is None:
        return {}
    with faults_of(path):
        return read_hosts(read(path))


@contextlib.contextmanager
def without_collection() -> Iterator[None]:
    """Has Python look for no garbage meanwhile. The elements of a long file are many, and none of them is any."""
    was_enabled = gc.isenabled()
    gc.disable()
    try:
        yield
    finally:
        if was_enabled:
            gc.enable()


def run(asked: argparse.Namespace) -> Report:
    """Prints the report, and writes the folder. Returns the report."""
    report = Report()
    hosts = hosts_of(asked.hosts)
    data = read(asked.file)
    with faults_of(asked.file), without_collection():
        node = import_device(data, wanted_of(asked), hosts, report)
    files = files_of(node) | (skeletons_of(node) if asked.skeleton else {})
    # The report comes first: if it can't be written, there is no folder.
    sys.stdout.write("".join(f"{it}\n" for it in report.lines()))
    sys.stdout.flush()
    write_folder(asked.folder, files)
    return report


def main(words: list[str] | None = None) -> int:
    """Exit status 0, 1 if a file is no configuration or fails, 2 for words that can't be meant, 3 if anything is
    lost."""
    asked = parse(words)
    if isinstance(sys.stdout, io.TextIOWrapper):
        sys.stdout.reconfigure(errors="backslashreplace")
    try:
        report = run(asked)
    except WrongWords as fault:
        print(f"{NAME}: {fault}", file=sys.stderr)
        return 2
    except (OSError, ValueError) as fault:
        print(f"{NAME}: {trdp_words.sentence(fault)}", file=sys.stderr)
        trdp_words.drop_output()
        return 1
    return LOSSES if report.has_losses else 0


if __name__ == "__main__":
    sys.exit(main())
