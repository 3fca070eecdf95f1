"""The tables of figures in bench/README.md: throughput, latency and load of the daemon, memory, proof time."""
from __future__ import annotations

import pathlib
import textwrap
from collections.abc import Callable, Sequence
from dataclasses import dataclass

import results
from blocks.words import (NONE, NOT_YET, Figures, about, figure_of, find, kib, mib, percent, ratio, short, table,
                          times)

# Of what serve.py measures, the rows that are shown, and their words here.
SERVED = {
    "telegram in, wanted": "telegram to `trdpd serve`, with one subscription",
    "telegram in, wanted, 256 objects": "telegram to `trdpd serve`, with 256 subscriptions",
    "request in, reply out": "pull request to `trdpd serve`, and its reply",
    "telegram out, 256 publishers": "telegram that `trdpd serve` sends, with 256 publishers",
}
# Of what daemon.py calls measures.
CALLS = {
    "flooded": "telegram to `trdpd daemon`, as many as it takes",
    "2000 a second": "telegram to `trdpd daemon`, 2,000 a second",
    "20000 a second": "telegram to `trdpd daemon`, 20,000 a second",
    "50000 a second": "telegram to `trdpd daemon`, 50,000 a second",
    "bursts": "telegram to `trdpd daemon`, bursts of 20, 60 µs apart, every 10 ms",
    "sent": "telegram that `trdpd daemon` sends, with 100 publishers, each every 20 ms",
}
FLOODED = {"other slot": "control of the next slot", "process data": "process data", "message data": "message data"}
FIRST_PROOF = "The first proof took 29 minutes on one machine with four processors (2026-11-29), 60 on another."
WIDTH = 120
Cells = list[str]


@dataclass(frozen=True)
class Part:
    """Rows of a table that are of one result: how many cells they have, and what they are if nothing was measured."""

    result: str
    words: str
    cells: Callable[[Figures], list[Cells]]


def lines(head: Sequence[str], parts: Sequence[Part], folder: pathlib.Path) -> list[str]:
    """A table of these parts. The last column has the result's name, and the table of scripts has its date."""
    rows: list[Cells] = []
    for part in parts:
        result = results.load(part.result, folder)
        if result is None:
            rows.append([part.words, NOT_YET, *[""] * (len(head) - 2), part.result])
        else:
            rows += [[*it, *[""] * (len(head) - len(it)), part.result] for it in cells_of(result, part)]
    return table([*head, "Result"], rows)


def cells_of(result: results.Result, part: Part) -> list[Cells]:
    """The rows of a result, without its name."""
    found: list[Cells] = []

    def value(figures: Figures) -> str:
        found.extend(part.cells(figures))
        return ""

    figure_of(result, value)
    return found


def calls(figures: Figures) -> list[Cells]:
    """Each cell has the figure of the node with one slot, and that of 16 slots if it was measured."""
    rows: list[Cells] = []
    for name, words in CALLS.items():
        both = [it for it in figures["rows"] if it["row"] == name]
        rate = both[0].get("taken_per_second", both[0].get("sent_per_second"))
        rows.append([words, "; ".join(short(it["us"]) for it in both), "", about(rate),
                     "; ".join(NONE if it["calls"] is None else f"{it['calls']:.1f}" for it in both)])
    return rows


def served(figures: Figures) -> list[Cells]:
    rows = [(words, find(figures["rows"], row=name)) for name, words in SERVED.items()]
    return [[words, f"{it['serve_us']:.2f}", ratio(it["serve_us"], it["bare_us"]), about(1e6 / it["serve_us"])]
            for words, it in rows]


def throughput(folder: pathlib.Path) -> list[str]:
    head = ("What", "Processor time, µs", "Ratio to a bare loop", "A second", "System calls")
    return lines(head, (Part("daemon-calls", "telegram to `trdpd daemon`", calls),
                        Part("serve", "telegram to `trdpd serve`", served)), folder)


def attended(words: str, it: Figures) -> Cells:
    """A row of a node of which load, lateness and answers were measured."""
    return [words, percent(it["processor"]), times(it["late"]), times(it["answer"])]


def rest(figures: Figures) -> list[Cells]:
    rows = [attended(f"`trdpd {it}`, 1 publisher, every 100 ms", figures["quiet"][it])
            for it in ("daemon", "serve")]
    answers = "; ".join(times(figures["flooded"][it]["daemon"]["answer"]) for it in FLOODED)
    return [*rows, [f"`trdpd daemon`, a port flooded: {'; '.join(FLOODED.values())}", "", "", answers]]


def idle(figures: Figures) -> list[Cells]:
    """In brackets is what a loop without a node takes."""
    rows: list[Cells] = []
    for it in figures["rows"]:
        many = "publishers, each" if it["publishers"] > 1 else "publisher,"
        name = f"`trdpd daemon`, {it['publishers']} {many} every {it['cycle_ms']} ms (a loop without a node)"
        daemon, loop = (attended(name, it[side]) for side in ("daemon", "loop_pieces"))
        rows.append([name, *(f"{one} ({other})" for one, other in zip(daemon[1:], loop[1:]))])
    return rows


def reset(figures: Figures) -> list[Cells]:
    late = figures["late"]
    return [[f"`trdpd serve`, a reset of {figures['objects']:,} objects beside {figures['others']:,}", "", "",
             short(figures["full_us"])],
            ["`trdpd daemon`, 1 publisher, every 10 ms, beside a slot that fills and resets itself (an idle slot)", "",
             f"{times(late['beside'])} ({times(late['alone'])})"]]


def latency(folder: pathlib.Path) -> list[str]:
    head = ("The node", "Processor", "Late, µs: median, 99 %", "Answer, µs: median, 99 %")
    return lines(head, (Part("daemon-rest", "`trdpd daemon` with little to do, or flooded", rest),
                        Part("daemon-idle", "`trdpd daemon` with 1 to 100 publishers", idle),
                        Part("reset", "a reset", reset)), folder)


def held(figures: Figures) -> list[Cells]:
    memory = figures["memory"]
    words = {"small": "`trdpd daemon`, one slot with one publisher",
             "full": f"`trdpd daemon`, 16 slots with {memory['full_objects']:,} objects"}
    return [[text, mib(memory[name]["rss_kib"]), mib(memory[name]["peak_kib"])] for name, text in words.items()]


def played_memory(figures: Figures) -> list[Cells]:
    most = max(it["lines"] for it in figures["rows"])
    return [[f"`trdpd run`, {most:,} lines", "", mib(max(it["peak_kib"] for it in figures["rows"]))]]


def asked_for(figures: Figures) -> list[Cells]:
    """What a program has asked for, of which the system gives only the pages that are used."""
    quotas = " and for ".join(f"{it['objects']:,}" for it in figures["rows"])
    return [[f"`trdpd run` before its first line, with quotas for {quotas} objects: memory asked for",
             "; ".join(kib(it["bytes"]) for it in figures["rows"])]]


def memory(folder: pathlib.Path) -> list[str]:
    return lines(("The program", "Memory", "At most"),
                 (Part("daemon-rest", "`trdpd daemon`", held), Part("script_lines", "`trdpd run`", played_memory),
                  Part("node_memory", "`trdpd run` before its first line: memory asked for", asked_for)), folder)


def proof(folder: pathlib.Path) -> list[str]:
    """The table of the first proof, or the sentence of the one that was timed by hand."""
    if results.load("proof", folder) is None:
        return [FIRST_PROOF]

    def proved(figures: Figures) -> list[Cells]:
        return [["`./run prove`, where nothing is kept", short(figures["minutes"]), short(figures["processor_minutes"]),
                 f"{short(figures['processor_minutes'] / figures['minutes'])} of {figures['processors']}"]]

    return lines(("Proof", "Minutes", "Minutes of processor time", "Processors busy"),
                 [Part("proof", "", proved)], folder)


def machine(folder: pathlib.Path) -> list[str]:
    """A sentence for each machine, with what was measured there."""
    found: dict[results.Machine, list[str]] = {}
    for path in sorted(folder.glob("*.json")):
        if result := results.load(path.stem, folder):
            found.setdefault(result.machine, []).append(path.stem)
    sentences = []
    for it, names in found.items():
        beneath = f" under {it.hypervisor}" if it.hypervisor else ""
        what = "The results" if len(found) == 1 else f"The results {', '.join(names)}"
        sentences.append(f"{what} are of this machine: {it.processor}, {it.processors} processors, "
                         f"Linux {it.kernel}{beneath}.")
    return textwrap.wrap(" ".join(sentences) or "Nothing is measured yet.", WIDTH, break_on_hyphens=False)
