"""The table of the scripts in bench/README.md: what each answers, its command, what it needs and its last result."""
from __future__ import annotations

import pathlib
from collections.abc import Callable
from dataclasses import dataclass

import results
from blocks.words import NOT_YET, Figures, about, date_of, figure_of, find, ratio, short, table, times

HEAD = ("Question", "Command", "Minutes", "Needs", "Last result")
PRINTED = "only printed"


@dataclass(frozen=True)
class Script:
    """A row. `minutes` is about how long it takes: what the last result took counts instead, if there is one. A script
    that saves nothing has no `result`, and one whose figures are in a table below no `value`."""

    question: str
    command: str
    minutes: str
    needs: str = ""
    result: str = ""
    value: Callable[[Figures], str] | None = None


def flooded(key: str, kind: str) -> Callable[[Figures], str]:
    """How long calls of a kind wait beside each flood, or that part of the time."""
    def value(figures: Figures) -> str:
        rows = [it for it in figures["rows"] if it[key] == kind]
        return "; ".join(f"{it['flooded']} {times(it['program'])} µs" for it in rows)

    return value


def played(figures: Figures) -> str:
    rows = figures["rows"]
    return ", ".join(f"{it['script']} {about(it['lines'] / it['seconds'])} a second" for it in rows
                     if it["lines"] == max(other["lines"] for other in rows))


def objects(figures: Figures) -> str:
    few, many = (find(figures["rows"], objects=it, slots=slots)["accepted_ns"] for it, slots in ((1, 1), (256, 16)))
    return f"with 4,096 a telegram takes {ratio(many, few)} times as long as with one"


def instructions(figures: Figures) -> str:
    return ", ".join(f"{it['line']} {it['instructions']:,}" for it in figures["rows"])


def reading(figures: Figures) -> str:
    rows = [find(figures["rows"], telegram=it, check="right") for it in ("process data", "message data")]
    return ", ".join(f"{it['telegram']} {ratio(it['proved_ns'], it['plain_ns'])} ({it['least_ratio']:.2f} to "
                     f"{it['most_ratio']:.2f})" for it in rows)


def reading_instructions(figures: Figures) -> str:
    return ", ".join(f"{it['telegram']} {ratio(it['proved'], it['plain'])}" for it in figures["rows"])


def frame_check(figures: Figures) -> str:
    """How many times as long the proved body takes, over a header of process data and over a telegram."""
    def compared(size: int, body: str) -> str:
        return ratio(*(find(figures["rows"], bytes=size, body=it)["ns"] for it in ("proved", body)))

    return "; ".join(f"{size} bytes: plain {compared(size, 'eight tables')}, zlib {compared(size, 'zlib')}"
                     for size in (36, 1472))


def view(figures: Figures) -> str:
    lost = figures["sent"] - figures["counted"] - figures["dropped"]
    return (f"{short(100 * figures['processor'])} % of a processor, {short(figures['half_mb'])} MB at half of the time "
            f"and {short(figures['end_mb'])} MB at the end, {lost} lost")


def library(figures: Figures) -> str:
    rows = figures["rows"]
    return ", ".join(f"{name} {rows[f'{name}, ns']} ns" for name in ("put", "pd", "line"))


def control_lines(figures: Figures) -> str:
    rows = [it for it in figures["lines"] if it["unanswered"] == 64]
    return ", ".join(f"{it['port']} {short(it['us'])} µs" for it in rows)


SCRIPTS = (
    Script("What does a telegram cost the daemon?", "bench/daemon.py calls", "4", "perf", "daemon-calls"),
    Script("What does sending cost, compared with a loop without a node?", "bench/daemon.py idle", "4", "rustc",
           "daemon-idle"),
    Script("How soon does a daemon answer that has little to do? Its memory", "bench/daemon.py rest", "3", "",
           "daemon-rest"),
    Script("How soon does it answer while a port is flooded?", "bench/daemon.py floods", "3", "", "daemon-floods",
           flooded("caller", "sleeps")),
    Script("How much of that time is the node's?", "bench/daemon.py trace", "2", "root, tracefs", "daemon-trace",
           flooded("part", "node")),
    Script("What does `trdpd serve` cost, compared with a bare loop?", "bench/serve.py", "0.5", "rustc; strace",
           "serve"),
    Script("How fast does `trdpd run` play a script?", "bench/script_lines.py", "0.2", "", "script_lines",
           played),
    Script("How much memory does a node ask for?", "bench/node_memory.py", "0.1", "gcc", "node_memory"),
    Script("Does an event cost more if slots have many objects?", "bench/many_objects.py", "3", "", "many_objects",
           objects),
    Script("How long does a reset take, and what does the next slot notice?", "bench/reset.py", "2", "", "reset"),
    Script("What does a line cost at a control socket, and at a UDP port?", "bench/control_lines.py", "0.5", "",
           "control_lines", control_lines),
    Script("How many times as long as plain Rust does reading a telegram take?", "bench/read_heads.py", "2",
           "the kit, rustc", "read_heads", reading),
    Script("How many times as many instructions?", "bench/read_heads.py instructions", "1", "the kit, rustc, valgrind",
           "read_heads_instructions", reading_instructions),
    Script("How many times as long as plain Rust does a frame check take?", "bench/frame_check.py", "1",
           "the kit, rustc, zlib", "frame_check", frame_check),
    Script("How many instructions does a line of a script take?", "bench/instructions.py", "3", "valgrind",
           "instructions", instructions),
    Script("What does the node cost as a library in C, in time, memory and stack?", "bench/library.py", "0.5",
           "gcc, valgrind", "library", library),
    Script("What does `trdp-view` cost at 5,000 telegrams a second, and does it lose any?", "bench/view.py", "10", "",
           "view", view),
    Script("Does the program need more than another program?", "bench/compare.py OTHER", "10", "rustc, valgrind"),
    Script("How long does the first proof take?", "bench/proof.py", "30 to 60", "the kit", "proof"),
)


def last(it: Script, folder: pathlib.Path) -> tuple[str, str]:
    """How many minutes a script takes, and its last result."""
    result = results.load(it.result, folder) if it.result else None
    if result is None:
        return it.minutes, NOT_YET if it.result else PRINTED
    value = f"{figure_of(result, it.value)}; " if it.value else ""
    return short(result.minutes), f"{value}{date_of(result)}"


def block(folder: pathlib.Path) -> list[str]:
    """The lines between the markers."""
    rows = []
    for it in SCRIPTS:
        minutes, result = last(it, folder)
        rows.append([it.question, f"`{it.command}`", minutes, it.needs, result])
    return table(HEAD, rows)
