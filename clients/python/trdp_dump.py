#!/usr/bin/env python3
"""Prints the telegrams that come to the ports of an address, a line for each.

    trdp_dump.py 127.0.0.2
    trdp_dump.py 127.0.0.2 --toml node.toml --com-id 2101 --type Pd --pcapng doors.pcapng
    trdp_dump.py 127.0.0.2 --beside
    trdp_dump.py 127.0.0.2 --table --toml node.toml
    trdp_dump.py 127.0.0.2 --group 239.192.0.1 --group 239.192.0.2 --interface lo

A line is

    Pd comId=2101 counter=46 counts=0,0 from=127.0.0.1:17224 length=7 value=[4, [0, 0, 0, 0], 0]

If no TOML file names the comId's dataset, or the bytes are no value of it, `data=04000000000000` is in place of the
value. If the file has names and units, they are shown, with the raw number in brackets behind one that is scaled:

    length=3 telegram=drive dataset=status value={speed: 12.5 km/h (125), locked: True (2)}

A pull request has `replyComId` and `replyAddress` too, a message `session`, `status`, `time` in microseconds and
`uris`, source and destination. A datagram that is no telegram is `fault=Fcs from=.. length=..`, by the names of its
first fault: Short, TooLong, Fcs, Version, Kind, Length.

With `--table` the terminal shows a row for each source, destination, comId and type, as the page of trdp-view does,
with what is wrong on top.

The file is a node's configuration, or any other one, with its `[[dataset]]` tables, and beside them one

    [[telegram]]
    com_id = 2101
    dataset = 5002

for each comId. The node ignores these.

Each group is joined at the interface of the address, or at the one that is named, and left at the end. What comes to it
by another interface isn't shown. The line of a datagram to a group is as the others; in the file for Wireshark the
group is its destination.

The ports are bound, so no one else may have them, but for those of a group, where another program shares them as well.
With `--beside`, what comes to the ports of another program, as a node, is copied from the system, which takes root. It
goes on until it is interrupted, or by `--count` and `--for-us`. Where the system reported datagrams that it couldn't
hand over, as one whose UDP check sum is wrong, or of packets that hold none, the last line on the error stream says how
many these were.
"""
from __future__ import annotations

import argparse
import contextlib
import functools
import sys
import time
from collections.abc import Iterator
from typing import NamedTuple

import trdp_ports
import trdp_words
from trdp_ports import Datagram, Taker
from trdp_slot import Datasets, DoesNotFit
from trdp_telegram import MD_KINDS, PD_KINDS, NoTelegram, PcapngFile, Telegram, read_telegram

NAME = trdp_words.name_of("trdp_dump.py")
# The words that only lines have.
OF_LINES = ("pcapng", "time", "count")


def hex_word(data: bytes) -> str:
    """Bytes as a script has them."""
    return data.hex() or "-"


def uri_word(data: bytes) -> str:
    """A URI as a word of a line: `-` for none, and as Python writes bytes where it has others than plain letters."""
    if not data:
        return "-"
    is_plain = all(0x21 <= it <= 0x7E and it not in b">'\"" for it in data)
    return data.decode() if is_plain else repr(data).replace(" ", "\\x20")


def payload_words(telegram: Telegram, datasets: Datasets) -> Iterator[str]:
    """The names of the telegram and of its dataset, if there are any, and the payload: a value where the comId's
    dataset is known, else its bytes."""
    table = datasets.telegrams.get(telegram.com_id)
    if table and table.name:
        yield f"telegram={trdp_words.name_word(table.name)}"
    if table and table.dataset in datasets.dataset_names:
        yield f"dataset={trdp_words.name_word(datasets.dataset_names[table.dataset])}"
    yield payload_word(telegram.payload, table.dataset if table else 0, datasets)


def payload_word(payload: bytes, dataset: int, datasets: Datasets) -> str:
    """A payload, as a value of that dataset where it is one."""
    if dataset:
        with contextlib.suppress(DoesNotFit):
            return f"value={trdp_words.printable(datasets.reading(dataset, payload))}"
    return f"data={hex_word(payload)}"


def telegram_line(telegram: Telegram, source: tuple[str, int], datasets: Datasets) -> str:
    """The line of a telegram."""
    words = [telegram.kind, f"comId={telegram.com_id}", f"counter={telegram.counter}",
             f"counts={telegram.etb},{telegram.op_trn}", f"from={source[0]}:{source[1]}",
             f"length={len(telegram.payload)}"]
    if telegram.kind == "Pr":
        words += [f"replyComId={telegram.reply_com_id}", f"replyAddress={telegram.reply_address}"]
    if telegram.is_message:
        uris = f"uris={uri_word(telegram.source_uri)}>{uri_word(telegram.dest_uri)}"
        words += [f"session={telegram.session}", f"status={telegram.status}", f"time={telegram.time_us}", uris]
    return " ".join([*words, *payload_words(telegram, datasets)])


class Filter(NamedTuple):
    """Which telegrams are shown: those of one of the comIds and of one of the types; all where there are none."""

    com_ids: frozenset[int]
    kinds: frozenset[str]

    def takes(self, telegram: Telegram) -> bool:
        """Whether a telegram is shown."""
        is_com_id = not self.com_ids or telegram.com_id in self.com_ids
        return is_com_id and (not self.kinds or telegram.kind in self.kinds)

    @property
    def is_open(self) -> bool:
        """Whether all are shown, and with them what is no telegram."""
        return not self.com_ids and not self.kinds


def dump_line(datagram: Datagram, is_message: bool, wanted: Filter, datasets: Datasets) -> str | None:
    """The line of a datagram; None where it isn't shown."""
    try:
        telegram = read_telegram(datagram.data, is_message)
    except NoTelegram as fault:
        source = f"from={datagram.source[0]}:{datagram.source[1]}"
        return f"fault={fault.name} {source} length={len(datagram.data)}" if wanted.is_open else None
    return telegram_line(telegram, datagram.source, datasets) if wanted.takes(telegram) else None


@functools.cache
def parser() -> trdp_words.Words:
    """All words of the command line."""
    u32 = trdp_words.number(0, trdp_words.U32_MOST)
    words = trdp_words.Words(prog=NAME, description="Prints the telegrams that come to the ports of an address.")
    words.add_argument("address", type=trdp_words.address, help="the address, as 127.0.0.2")
    trdp_ports.add_words(words, "print")
    words.add_argument("--toml", help="a file with datasets, and [[telegram]] tables of comIds")
    words.add_argument("--com-id", type=u32, action="append", default=[],
                       help="only telegrams of this comId; may be repeated")
    words.add_argument("--type", choices=[*PD_KINDS, *MD_KINDS], action="append", default=[],
                       help="only telegrams of this type; may be repeated")
    words.add_argument("--table", action="store_true",
                       help="show a row for each source, destination, comId and type in this terminal; q ends it")
    words.add_argument("--pcapng", help="write what is printed to this file, too, for Wireshark")
    words.add_argument("--time", action="store_true", help="the seconds since 1970 before each line")
    words.add_argument("--count", type=trdp_words.number(1, trdp_words.U32_MOST), help="end after so many lines")
    words.add_argument("--for-us", type=trdp_words.number(1, trdp_words.WAIT_MOST_US),
                       help="end after so many microseconds")
    return words


def parse(words: list[str] | None) -> argparse.Namespace:
    """The words of the command line: these, or those of the program."""
    asked = parser().parse_args(words)
    trdp_ports.check_words(parser(), asked)
    for word in OF_LINES:
        if asked.table and getattr(asked, word):
            parser().error(f"--{word} is of lines, and --table shows none")
    return asked


def end_of(asked: argparse.Namespace) -> float | None:
    """The moment of `time.monotonic` at which it ends, if there is one."""
    return None if asked.for_us is None else time.monotonic() + asked.for_us / 1_000_000


def show_table(asked: argparse.Namespace, taker: Taker, datasets: Datasets) -> None:
    """Shows the rows of what comes. Raises ValueError if there is no terminal."""
    # A Python without curses prints lines.
    from trdp_view import known, network, table
    file = known.File(datasets if asked.toml else None)
    table.show(taker, network.Network(file, asked.md_port), table.Wanted(asked.com_id, asked.type), end_of(asked))


def print_all(asked: argparse.Namespace, taker: Taker, datasets: Datasets, file: PcapngFile | None) -> None:
    """Prints what comes until it is enough, and writes it to the file."""
    wanted = Filter(frozenset(asked.com_id), frozenset(asked.type))
    count = 0
    for datagram in taker.datagrams(end_of(asked)):
        line = dump_line(datagram, datagram.dest[1] == asked.md_port, wanted, datasets)
        if line is None:
            continue
        if file:
            file.add(datagram.time_us, datagram.source, datagram.dest, datagram.data)
        seconds, rest = divmod(datagram.time_us, 1_000_000)
        print(f"{seconds}.{rest:06} {line}" if asked.time else line, flush=True)
        count += 1
        if count == asked.count:
            return


def dump(asked: argparse.Namespace, stack: contextlib.ExitStack) -> None:
    """Prints what comes, and then how much couldn't be read. What is opened is closed with the stack."""
    trdp_words.escape_output()
    datasets = trdp_words.datasets_of(asked.toml) if asked.toml else Datasets({})
    taker = trdp_ports.taker_of(asked.address, asked, stack)
    if asked.table:
        show_table(asked, taker, datasets)
        return
    file = PcapngFile(stack.enter_context(open(asked.pcapng, "wb"))) if asked.pcapng else None
    homes = " and ".join(taker.where.homes)
    print(f"{NAME}: at {homes}, ports {asked.pd_port} and {asked.md_port}", file=sys.stderr, flush=True)
    try:
        print_all(asked, taker, datasets, file)
    finally:
        if taker.unread:
            print(f"{NAME}: {taker.unread} datagrams couldn't be read", file=sys.stderr)


def main(words: list[str] | None = None) -> int:
    """Exit status 0, 1 where the ports or a file can't be had, 2 for words that can't be meant."""
    asked = parse(words)
    try:
        with contextlib.ExitStack() as stack:
            dump(asked, stack)
    except (OSError, ValueError) as fault:
        print(f"{NAME}: {trdp_words.sentence(fault)}", file=sys.stderr)
        trdp_words.drop_output()
        return 1
    except KeyboardInterrupt:
        pass
    return 0


if __name__ == "__main__":
    sys.exit(main())
