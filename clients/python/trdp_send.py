#!/usr/bin/env python3
"""Sends a telegram, once or with a cycle.

    trdp_send.py 127.0.0.1:17224 --com-id 1101 --data 040000
    trdp_send.py 127.0.0.1:17224 --com-id 2101 --toml node.toml --value '[4, [0, 0, 0, 0], 0]' --cycle-us 100000
    trdp_send.py 127.0.0.1:17225 --type Mn --com-id 300 --source-uri door --dest-uri car --data 0d
    trdp_send.py 239.192.0.1:17224 --from 10.0.0.2:17224 --ttl 5 --com-id 1101 --data 040000

A value is written as trdp_dump.py prints one without names: a list with one entry for each element, a number, a pair in
round brackets for a time, a list for an array or another dataset. It may be a dict by names, too. Its dataset is the
one of the comId in the file's `[[telegram]]` tables, or the one that is named by --dataset.

With a cycle the counter of process data rises by one with each telegram; that of a message stays. It goes on until
it is interrupted, or by --count.

To a group it leaves by the interface that has the address of --from, or else by that of the system's routes. It goes
over 64 links at most, where --ttl names no other number.
"""
from __future__ import annotations

import argparse
import ast
import errno
import functools
import os
import socket
import sys
import time
import uuid
from typing import Any

import trdp_words
from trdp_telegram import MD_KINDS, PD_KINDS, Telegram

NAME = trdp_words.name_of("trdp_send.py")
# Over how many links a telegram to a group goes at most, as the standard recommends.
GROUP_TTL = 64
NO_SESSION = uuid.UUID(int=0)
MESSAGES = frozenset(MD_KINDS)
# The types of telegrams whose headers have what these words say.
HEADERS = {
    "reply_com_id": frozenset(PD_KINDS), "reply_address": frozenset(PD_KINDS), "session": MESSAGES - {"Mn"},
    "status": MESSAGES, "time_us": MESSAGES, "source_uri": MESSAGES, "dest_uri": MESSAGES,
}


def data_of(text: str) -> bytes:
    """Bytes as trdp_dump.py prints them: hexadecimal digits, `-` for none."""
    try:
        return b"" if text == "-" else bytes.fromhex(text)
    except ValueError:
        raise argparse.ArgumentTypeError(
            f"{trdp_words.shown(text)} is neither - nor hexadecimal digits, two for each byte") from None


def session_of(text: str) -> uuid.UUID:
    """A session; one by chance for `new`."""
    try:
        return uuid.uuid4() if text == "new" else uuid.UUID(text)
    except ValueError:
        raise argparse.ArgumentTypeError(f"{trdp_words.shown(text)} is neither new nor a UUID") from None


def uri_of(text: str) -> bytes:
    """A URI, of the bytes that were typed."""
    data = text.encode("utf-8", "surrogateescape")
    if len(data) > 32 or 0 in data:
        raise argparse.ArgumentTypeError(f"{trdp_words.shown(text)} has more than 32 bytes, or a zero byte")
    return data


class Reals(ast.NodeTransformer):
    """Makes numbers of the words `inf` and `nan`, which Python writes and doesn't read."""

    def visit_Name(self, node: ast.Name) -> ast.expr:
        """A word that stands alone."""
        return ast.Constant(float(node.id)) if node.id in ("inf", "nan") else node


def value_of(text: str) -> Any:
    """A value as Python writes it: numbers, texts, tuples, lists and dicts."""
    try:
        return ast.literal_eval(Reals().visit(ast.parse(text.lstrip(" \t"), mode="eval")))
    except (SyntaxError, ValueError, TypeError, MemoryError, RecursionError):
        raise argparse.ArgumentTypeError(
            f"{trdp_words.shown(text)} is no value, as [4, [0, 0, 0, 0], 0]") from None


@functools.cache
def parser() -> trdp_words.Words:
    """All words of the command line."""
    u32 = trdp_words.number(0, trdp_words.U32_MOST)
    words = trdp_words.Words(prog=NAME, description="Sends a telegram, once or with a cycle.")
    words.add_argument("place", type=trdp_words.place(1), help="where it goes to, as 127.0.0.1:17224")
    words.add_argument("--type", choices=[*PD_KINDS, *MD_KINDS], default="Pd", help="its type (Pd)")
    words.add_argument("--com-id", type=u32, required=True)
    words.add_argument("--counter", type=u32, default=0, help="of the first one (0)")
    words.add_argument("--etb", type=u32, default=0, help="topology counter ETB (0)")
    words.add_argument("--op-trn", type=u32, default=0, help="topology counter OPTRN (0)")
    words.add_argument("--reply-com-id", type=u32, help="of a pull request (0)")
    words.add_argument("--reply-address", type=trdp_words.address, help="of a pull request (0.0.0.0)")
    words.add_argument("--session", type=session_of, help="of a message: a UUID, or new (new)")
    words.add_argument("--status", type=trdp_words.number(-trdp_words.I32_MOST - 1, trdp_words.I32_MOST),
                       help="of a message (0)")
    words.add_argument("--time-us", type=u32, help="of a message: what is left to the other side (0)")
    words.add_argument("--source-uri", type=uri_of, help="of a message")
    words.add_argument("--dest-uri", type=uri_of, help="of a message")
    payload = words.add_mutually_exclusive_group()
    payload.add_argument("--data", type=data_of, default=b"", help="the payload's bytes, in hexadecimal digits")
    payload.add_argument("--value", type=value_of, help="the payload as a value of a dataset, as Python writes it")
    words.add_argument("--toml", help="a file with datasets, and [[telegram]] tables of comIds")
    words.add_argument("--dataset", type=trdp_words.number(1, trdp_words.U32_MOST),
                       help="the dataset of --value, where the file names none for the comId")
    words.add_argument("--from", dest="source", type=trdp_words.place(0),
                       help="where it comes from, as 127.0.0.9:17224")
    words.add_argument("--ttl", type=trdp_words.number(1, 255),
                       help=f"over how many links it goes at most, 1 to 255 ({GROUP_TTL} to a group, "
                            "else the system's)")
    words.add_argument("--cycle-us", type=trdp_words.number(1, trdp_words.U32_MOST),
                       help="send it again and again, so many microseconds apart")
    words.add_argument("--count", type=trdp_words.number(1, trdp_words.U32_MOST),
                       help="end after so many; with --cycle-us")
    return words


def parse(words: list[str] | None) -> argparse.Namespace:
    """The words of the command line: these, or those of the program."""
    line = parser()
    asked = line.parse_args(words)
    for word, kinds in HEADERS.items():
        if getattr(asked, word) is not None and asked.type not in kinds:
            line.error(f"--{word.replace('_', '-')}: a telegram of type {asked.type} has none")
    if asked.count and not asked.cycle_us:
        line.error("--count wants --cycle-us")
    if asked.value is not None and not asked.toml:
        line.error("--value wants --toml")
    if asked.dataset and asked.value is None:
        line.error("--dataset wants --value")
    return asked


def payload_of(asked: argparse.Namespace) -> bytes:
    """The payload. Raises ValueError where there is no dataset for the value, or it doesn't fit."""
    if asked.value is None:
        return bytes(asked.data)
    datasets = trdp_words.datasets_of(asked.toml)
    number = asked.dataset or datasets.com_ids.get(asked.com_id)
    if asked.dataset and asked.dataset not in datasets:
        raise ValueError(f"{asked.toml} has no dataset {asked.dataset}")
    if number is None or number not in datasets:
        raise ValueError(f"{asked.toml} names no dataset for comId {asked.com_id}: name one by --dataset")
    return datasets.pack(number, asked.value)


def telegram_of(asked: argparse.Namespace) -> Telegram:
    """The telegram that is asked for."""
    session = asked.session or (uuid.uuid4() if asked.type in HEADERS["session"] else NO_SESSION)
    return Telegram(asked.type, asked.com_id, asked.counter, asked.etb, asked.op_trn, payload_of(asked),
                    asked.reply_com_id or 0, asked.reply_address or "0.0.0.0", asked.status or 0, session,
                    asked.time_us or 0, asked.source_uri or b"", asked.dest_uri or b"")


def bind(out: socket.socket, source: tuple[str, int]) -> None:
    """Has it come from there. Raises OSError with the place, as for that of a group, which is no link's own."""
    try:
        if trdp_words.is_group(source[0]):
            raise OSError(errno.EADDRNOTAVAIL, os.strerror(errno.EADDRNOTAVAIL))
        out.bind(source)
    except OSError as fault:
        raise OSError(fault.errno, fault.strerror, f"{source[0]}:{source[1]}") from None


def direct(out: socket.socket, asked: argparse.Namespace) -> None:
    """Says how far it goes, to a group or to a place."""
    if not trdp_words.is_group(asked.place[0]):
        if asked.ttl:
            out.setsockopt(socket.IPPROTO_IP, socket.IP_TTL, asked.ttl)
        return
    # By which link it leaves, the system takes from the address that it is sent from. Where that link has joined the
    # group by an address of its own (autojoin), a link that is named by its address would be the loopback.
    out.setsockopt(socket.IPPROTO_IP, socket.IP_MULTICAST_TTL, asked.ttl or GROUP_TTL)


def give(out: socket.socket, data: bytes, place: tuple[str, int]) -> None:
    """Has the system send it. Raises OSError with the place."""
    try:
        out.sendto(data, place)
    except OSError as fault:
        raise OSError(fault.errno, fault.strerror, f"{place[0]}:{place[1]}") from None


def send(asked: argparse.Namespace) -> None:
    """Sends the telegram, as often as it is asked for."""
    telegram = telegram_of(asked)
    count = asked.count if asked.cycle_us else 1
    start = time.monotonic()
    with socket.socket(socket.AF_INET, socket.SOCK_DGRAM) as out:
        if asked.source:
            bind(out, asked.source)
        direct(out, asked)
        sent = 0
        while sent != count:
            give(out, telegram.write(), asked.place)
            sent += 1
            if not telegram.is_message:
                telegram.counter = (telegram.counter + 1) % (1 << 32)
            if sent != count:
                time.sleep(max(0.0, start + sent * asked.cycle_us / 1_000_000 - time.monotonic()))


def main(words: list[str] | None = None) -> int:
    """Exit status 0, 1 where it can't be sent or a file can't be had, 2 for words that can't be meant."""
    asked = parse(words)
    try:
        send(asked)
    except (OSError, ValueError) as fault:
        print(f"{NAME}: {trdp_words.sentence(fault)}", file=sys.stderr)
        return 1
    except KeyboardInterrupt:
        pass
    return 0


if __name__ == "__main__":
    sys.exit(main())
