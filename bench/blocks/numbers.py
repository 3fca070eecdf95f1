"""The table of README.md: a few numbers, of proved programs only."""
from __future__ import annotations

import pathlib
import subprocess
from collections.abc import Callable, Iterator
from dataclasses import dataclass

import results
from blocks.words import NOT_YET, Figures, about, date_of, figure_of, find, mib, percent, ratio, short, table

HEAD = ("Measure", "Value", "Source ([how to measure](bench/README.md))")
LINES = "docs/tools/figures"


@dataclass(frozen=True)
class Number:
    """A row: what it says first, the result that it is of, the command that measures that, and its value."""

    words: str
    result: str
    command: str
    value: Callable[[Figures], str]


def flooded(figures: Figures) -> str:
    row = find(figures["rows"], row="flooded", slots=1)
    return f"{about(row['taken_per_second'])}, with {percent(row['processor'])} of one processor"


def served(figures: Figures) -> str:
    row = find(figures["rows"], row="telegram in, wanted")
    return (f"{about(1e6 / row['serve_us'])}; {ratio(row['serve_us'], row['bare_us'])} times the processor time of a "
            "bare loop with the same system calls")


def read(figures: Figures) -> str:
    pd, md = (find(figures["rows"], telegram=it, check="right") for it in ("process data", "message data"))
    return " and ".join(f"{short(it['proved_ns'])} ns ({ratio(it['proved_ns'], it['plain_ns'])} times)"
                        for it in (pd, md))


def held(figures: Figures) -> str:
    memory = figures["memory"]
    return f"{mib(memory['small']['rss_kib'])} and {mib(memory['full']['rss_kib'])}"


def idle(figures: Figures) -> str:
    row = find(figures["rows"], publishers=100, cycle_ms=20)
    return f"{percent(row['daemon']['processor'])} and {percent(row['loop_pieces']['processor'])}"


def answered(figures: Figures) -> str:
    answer = figures["quiet"]["daemon"]["answer"]
    return f"{short(answer['median_us'])} and {short(answer['p99_us'])} microseconds"


NUMBERS = (
    Number("Telegrams a second that the daemon takes from a socket to a subscription", "daemon-calls",
           "bench/daemon.py calls", flooded),
    Number("The same for `trdpd serve`, a mode for measurements that never sleeps", "serve", "bench/serve.py", served),
    Number("Time to read process data and a message, compared with plain Rust", "read_heads", "bench/read_heads.py",
           read),
    Number("Memory of a daemon with one slot, and with 16 slots that have all objects", "daemon-rest",
           "bench/daemon.py rest", held),
    Number("Load of one processor with 100 publishers that send every 20 ms: the daemon, a loop without a node",
           "daemon-idle", "bench/daemon.py idle", idle),
    Number("Time until a call to a sleeping daemon is answered: median and 99 %", "daemon-rest", "bench/daemon.py rest",
           answered),
)


def lines_row() -> list[str]:
    """The row of the lines of the sources."""
    said = subprocess.run([results.TOP / LINES], capture_output=True, text=True, check=True).stdout
    *kinds, proof = said.splitlines()[-1].split()[1:]
    return ["Lines of code, contracts, definitions and proof; proof for each line of code",
            f"{' / '.join(kinds)}; {proof}", f"`{LINES}`"]


def rows(folder: pathlib.Path) -> Iterator[list[str]]:
    """The rows of what was measured. Raises Fault if a result is not of a proved program."""
    for it in NUMBERS:
        result = results.load(it.result, folder)
        if result is None:
            yield [it.words, NOT_YET, f"`{it.command}`"]
        elif not result.proved:
            raise results.Fault(f"{it.result}.json is not of a proved program: README.md takes no such result")
        else:
            yield [it.words, figure_of(result, it.value), f"`{it.command}`, {date_of(result)}"]


def block(folder: pathlib.Path) -> list[str]:
    """The lines between the markers."""
    return table(HEAD, [lines_row(), *rows(folder)])
