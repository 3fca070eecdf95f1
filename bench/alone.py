#!/usr/bin/env python3
"""Each slot of a node beside the same slot by itself, over events by chance.

    bench/alone.py [EVENTS [SEED [PROGRAM]]]      default: 40000 events, seed 1, $TRDPD or crates/trdpd/out/trdpd
    bench/alone.py rows
    bench/alone.py limits [PROGRAM]

`bench/alone/` is a second implementation of the rules in docs/PROFILE.md, docs/MODEL.md and docs/SCRIPT.md: one slot by
itself, which has a list of its objects and looks at each of them at every event. Nothing of it is taken from the
crates, and no slot knows of another. Events by chance, some 5000 for each of several nodes, are played by the program
and by each slot by itself: each event has to give the lines that the slots give, slots rising. A run says how often
each kind of line came, and fails where one never came that chance can reach. SEED `clock` takes the seed from the
clock; it is printed.

With `rows` the slots by themselves play all scripts that are in the repository with their output: those of rows/
whose configuration is accepted, and the examples. With `limits` both play a node at every limit, and a publisher's
first ten thousand telegrams. The exit status is 0 where all is alike.
"""
from __future__ import annotations

import os
import subprocess
import sys
import tempfile
import time
from collections import Counter
from random import Random

from alone import cover, limits, rows
from alone.beside import Beside
from alone.chance import Chance
from alone.draws import Draws, config_by_chance
from alone.lines import read_line
from alone.play import play
from alone.settings import Settings

TOP = os.path.dirname(os.path.dirname(os.path.abspath(__file__)))
EVENTS_OF_A_NODE = 5000
# Comes after each event, and gives the line after it, so that each event's own lines show.
MARK, MARKED = "role 0 leader", "fault NoGroup"


class Wrong(Exception):
    """What must not be."""


class Run:
    """The events of one node by chance, with what its slots give by themselves."""

    def __init__(self, seed: str, events: int, seen: Counter[str]) -> None:
        draws = Draws(Random(seed))
        self.config = config_by_chance(draws)
        beside = Beside(Settings(self.config), seen)
        chance = Chance(draws, beside, events)
        # Of each event its line, and the lines that it gives.
        self.events: list[tuple[str, list[str]]] = []
        for _ in range(events):
            line = chance.line()
            event = read_line(line)
            assert event is not None
            given = beside.step(event)
            for it in given:
                chance.arrivals.note(it)
                seen[cover.name_of(event, it)] += 1
            self.events.append((line, given))
        self.slots = len(beside.slots)

    def script(self) -> str:
        return "".join(f"{line}\n{MARK}\n" for line, _ in self.events)

    def compare(self, program: str) -> int:
        """Compares what the program gives with what the slots give by themselves; answers how many lines these are."""
        at, played = 0, played_by(program, self.config, self.script())
        for number, (line, given) in enumerate(self.events):
            wanted = given + [MARKED]
            if (found := played[at:at + len(wanted)]) != wanted:
                raise Wrong(self.difference(number, line, wanted, found))
            at += len(wanted)
        if at != len(played):
            raise Wrong(f"{len(played) - at} lines behind the last event's")
        return at - len(self.events)

    def difference(self, number: int, line: str, wanted: list[str], found: list[str]) -> str:
        """Tells of an event at which they differ, and keeps what leads to it."""
        folder = tempfile.mkdtemp(prefix="alone-")
        script = "".join(f"{it}\n" for it, _ in self.events[:number + 1])
        for name, text in (("node.toml", self.config), ("script", script)):
            with open(os.path.join(folder, name), "w") as file:
                file.write(text)
        texts = (f"event {number + 1}: {line[:300]}", *shown("alone", wanted), *shown("program", found))
        return "\n".join((*texts, f"{folder} has the configuration and the script"))


def played_by(program: str, config: str, script: str) -> list[str]:
    """What the program gives for a script, line by line."""
    with tempfile.TemporaryDirectory() as folder:
        path = os.path.join(folder, "node.toml")
        with open(path, "w") as file:
            file.write(config)
        ran = subprocess.run([program, "run", path], input=script, capture_output=True, text=True)
    if ran.returncode != 0:
        raise Wrong(f"the program ended with {ran.returncode}: {ran.stderr.strip()}")
    return ran.stdout.split("\n")[:-1]


def shown(who: str, lines: list[str]) -> list[str]:
    return [f"  {who}: {line[:300]}" for line in lines]


def by_chance(events: int, seed: str, program: str) -> None:
    """Plays that many events, and prints what they gave."""
    seen: Counter[str] = Counter()
    given, slots, begun = 0, 0, time.monotonic()
    for first in range(0, events, EVENTS_OF_A_NODE):
        name = f"{seed}.{first // EVENTS_OF_A_NODE}"
        try:
            run = Run(name, min(EVENTS_OF_A_NODE, events - first), seen)
            given += run.compare(program)
            slots += run.slots
        except Wrong as fault:
            raise Wrong(f"node {name}: {fault}") from None
    print(", ".join(f"{name} {count}" for name, count in sorted(seen.items())))
    print(f"seed {seed}: {events} events of {slots} slots give {given} lines, alike; {time.monotonic() - begun:.0f} s")
    if missing := [name for name in cover.wanted() if not seen[name]]:
        raise Wrong(f"these never came: {', '.join(missing)}")


def by_rows() -> None:
    """Plays each script of the repository on slots by themselves."""
    count = 0
    for where, config, script, output, ending in rows.all_of(TOP):
        given, ended = play(config, script)
        if "".join(f"{line}\n" for line in given) != output or ended != ending:
            raise Wrong(f"{where} gives something else")
        count += 1
    print(f"{count} scripts give what stands beside them")


def by_limits(program: str) -> None:
    """Plays the long scripts, and counts the lines that hold each word."""
    for name, config, lines, words in limits.all_of():
        script = "".join(f"{line}\n" for line in lines)
        given, ended = play(config, script)
        if ended is not None or played_by(program, config, script) != given:
            raise Wrong(f"{name}: the program gives something else than the slot by itself, which ended with {ended}")
        if (counts := {word: sum(word in line for line in given) for word in words}) != words:
            raise Wrong(f"{name}: {counts}, and not {words}")
        print(f"{name}: {len(given)} lines, alike")


def main(words: list[str]) -> None:
    default = os.environ.get("TRDPD", f"{TOP}/crates/trdpd/out/trdpd")
    if words == ["rows"]:
        by_rows()
    elif words[:1] == ["limits"]:
        by_limits(*(words[1:] or [default]))
    else:
        events, seed, program = (words + ["40000", "1", default][len(words):])[:3]
        by_chance(int(events), str(time.time_ns()) if seed == "clock" else seed, program)


if __name__ == "__main__":
    try:
        main(sys.argv[1:])
    except (Wrong, OSError) as fault:
        sys.exit(f"alone.py: {fault}")
