#!/usr/bin/env python3
"""Proves and builds the program, or the node's library for C, crate by crate, several crates at a time.

    package/prove.py [CRATE]                `./run prove` runs it, and holds the lock of the build meanwhile

CRATE is `trdpd` or `trdp_node`.

A crate begins when the crates below it are proved, the crate with the longest chain of crates above it first. At most
as many crates are proved at a time as there are processors, and only one for each 3 GB of free memory. The crate with
the longest chain gets that number of processes, up to four; the second one gets half of it, and the third one a third.
The others have a lower priority than the first one, because only the first one decides when the program is proved.

One crate is proved in this tree, and each other crate in a copy of it, because two `rt` in one tree wait for each
other. What `rt` made in a copy is moved into this tree, also after a failure or an interrupt. If there is no room for a
copy, its crate waits until no crate is proved in this tree.

out/proof/NAME.log has what `rt` printed about a crate, out/proof/seconds how long each crate took when it was last
proved. These times decide which chain is the longest, and how long the proof may still take. A crate that was not
proved here yet is expected to take a time in proportion to the size of its sources. The status is 0 if the program is
proved, 4 if it is not, and 130 after an interrupt.
"""
from __future__ import annotations

import contextlib
import dataclasses
import graphlib
import os
import pathlib
import re
import shutil
import signal
import subprocess
import sys
import tempfile
import time

sys.dont_write_bytecode = True
import copies  # noqa: E402
import record  # noqa: E402

TOP = record.TOP
NOTES = TOP / "out/proof"
MEMINFO = pathlib.Path("/proc/meminfo")
# The free memory for each crate that is proved at a time, in bytes, and the most processes for one crate.
MEMORY, PROCESSES = 3_000_000_000, 4
# Seconds: between two lines about the progress, and between two looks at the processes. A crate that took less than
# LEAST had been proved before.
TELLS, LOOKS, LEAST = 30.0, 0.1, 3.0
# What lowers the priority of a crate's processes.
LOWER = ["nice", "-n", "10"]
# About how many minutes the first proof takes on four processors.
MINUTES = {record.PROGRAM: 30, record.LIBRARY: 25}
# Seconds for each byte of a crate's sources, as long as no crate was proved here.
GUESS = 0.0008


class Failed(Exception):
    """Why the program was not built."""


def say(text: str) -> None:
    """Prints a line on standard error, if it is still open."""
    with contextlib.suppress(OSError):
        print(f"run: {text}", file=sys.stderr, flush=True)


def free_memory() -> int:
    """The memory that is free, in bytes."""
    found = re.search(r"^MemAvailable:\s*(\d+) kB$", MEMINFO.read_text("ascii"), re.MULTILINE)
    return int(found[1]) * 1024 if found else 0


def noted_seconds() -> dict[str, float]:
    """How long each crate took when it was last proved here; nothing if that is not noted."""
    try:
        lines = (NOTES / "seconds").read_text("ascii").splitlines()
        return {name: float(seconds) for name, seconds in (line.split() for line in lines)}
    except (OSError, ValueError):
        return {}


def chains(below: dict[str, list[str]], weights: dict[str, float]) -> dict[str, float]:
    """What the longest chain from each crate up to the program weighs."""
    found: dict[str, float] = {}
    for name in reversed([*graphlib.TopologicalSorter(below).static_order()]):
        found[name] = weights[name] + max((found[it] for it in below if name in below[it]), default=0.0)
    return found


@dataclasses.dataclass
class Proof:
    """A crate that is being proved."""

    name: str
    tree: pathlib.Path
    """The tree in which it is proved: this one, or a copy."""
    log: pathlib.Path
    process: subprocess.Popen[bytes]
    start: float

    def functions(self) -> str:
        """How many of its functions are proved, as its log says."""
        found = re.findall(r"^so far: (\d+ of \d+ functions)", self.log.read_text("utf-8", "replace"), re.MULTILINE)
        return f" ({found[-1]})" if found else ""

    def stop(self) -> None:
        """Ends its processes."""
        for number in (signal.SIGTERM, signal.SIGKILL):
            with contextlib.suppress(ProcessLookupError, subprocess.TimeoutExpired):
                os.killpg(self.process.pid, number)
                self.process.wait(10)

    def keep(self) -> None:
        """Moves what was made of it in a copy into this tree, and removes the copy."""
        if self.tree != TOP:
            copies.take(self.tree, self.name)


class Build:
    """The crates that are proved, those that are being proved, and those that may begin."""

    def __init__(self, folder: pathlib.Path, goal: str) -> None:
        self.folder, self.goal = folder, goal
        self.target = TOP / record.place_of("proved", goal)
        self.rt = os.path.abspath(shutil.which(os.environ.get("RT") or "rt") or "rt")
        self.below = record.crates_below(TOP, goal)
        self.sizes = {it: copies.bytes_in(TOP / "crates" / it, "out", "must-fail") for it in self.below}
        self.noted = noted_seconds()
        self.at_once = max(1, min(len(os.sched_getaffinity(0)), free_memory() // MEMORY))
        self.order = graphlib.TopologicalSorter(self.below)
        self.order.prepare()
        self.ready: list[str] = []
        self.running: list[Proof] = []
        self.done: set[str] = set()
        self.without_copy: set[str] = set()
        self.start = time.monotonic()

    def weights(self) -> dict[str, float]:
        """How many seconds each crate takes: as many as when it was last proved here, else by the size of its
        sources."""
        known = self.below.keys() & self.noted.keys()
        rate = sum(self.noted[it] for it in known) / sum(self.sizes[it] for it in known) if known else GUESS
        return {it: self.noted.get(it, rate * size) for it, size in self.sizes.items()}

    def tree_for(self, name: str) -> pathlib.Path | None:
        """The tree in which a crate can be proved now; None if it has to wait."""
        if len(self.running) >= self.at_once:
            return None
        if all(it.tree != TOP for it in self.running):
            return TOP
        if name in self.without_copy or free_memory() < MEMORY:
            return None
        try:
            return copies.make(self.folder, name)
        except OSError as why:
            self.without_copy.add(name)
            say(f"{name} is not proved beside another crate: {why}")
            return None

    def begin(self) -> None:
        """Begins each crate that can be proved now, the longest chain first."""
        self.ready += self.order.get_ready()
        longest = chains(self.below, self.weights())
        for name in sorted(self.ready, key=lambda it: -longest[it]):
            if (tree := self.tree_for(name)) is None:
                continue
            ahead = sum(longest[it.name] >= longest[name] for it in self.running)
            jobs = max(1, min(PROCESSES, self.at_once // (ahead + 1)))
            command = "run" if name == record.PROGRAM else "lib"
            words = [*(LOWER if ahead else []), self.rt, command, "--jobs", str(jobs)]
            path = NOTES / f"{name}.log"
            with open(path, "wb") as log:
                # It inherits the lock of the build, so that another ./run waits even if this process is killed.
                process = subprocess.Popen(words, cwd=tree / "crates" / name, stdin=subprocess.DEVNULL, stdout=log,
                                           stderr=log, start_new_session=True, close_fds=False)
            self.ready.remove(name)
            self.running.append(Proof(name, tree, path, process, time.monotonic()))

    def end(self, proof: Proof) -> None:
        """Takes what a crate's processes made, now that they have ended. Raises Failed if the crate is not proved."""
        self.running.remove(proof)
        # `rt run` ends with the program's own status, so its file tells whether it was built.
        is_program = proof.name == record.PROGRAM
        is_made = os.access(self.target, os.X_OK) if is_program else proof.process.returncode == 0
        if not is_made:
            with contextlib.suppress(OSError):
                print(*proof.log.read_text("utf-8", "replace").splitlines()[-20:], sep="\n", file=sys.stderr)
        proof.keep()
        if not is_made:
            raise Failed(f"{self.goal} wasn't built: {proof.name} failed; the whole text is in {proof.log}")
        self.done.add(proof.name)
        self.order.done(proof.name)
        if (seconds := time.monotonic() - proof.start) >= LEAST:
            self.noted[proof.name] = seconds
            (NOTES / "seconds").write_text("".join(f"{it} {self.noted[it]:.1f}\n" for it in self.noted), "ascii")

    def more(self) -> str:
        """How long it may still take, by the longest chain, or by all crates that are left."""
        weights = self.weights()
        spent = dict.fromkeys(self.below.keys() - self.done, 0.0)
        for it in self.running:
            spent[it.name] = min(time.monotonic() - it.start, weights[it.name])
        all_chains = chains(self.below, weights)
        longest = max(all_chains[name] - spent[name] for name in spent)
        shared = sum(weights[name] - spent[name] for name in spent) / self.at_once
        return f", about {max(1, round(max(longest, shared) / 60))} min more"

    def tell(self) -> None:
        """Tells how far the build is."""
        minutes, seconds = divmod(int(time.monotonic() - self.start), 60)
        now = ", ".join(f"{it.name}{it.functions()}" for it in self.running)
        say(f"{minutes}:{seconds:02}  {len(self.done)} of {len(self.below)} crates, now {now}{self.more()}")

    def prove(self, signals: list[int]) -> None:
        """Proves all crates. Raises Failed, or KeyboardInterrupt after a signal."""
        told = self.start
        try:
            while self.order.is_active():
                if signals:
                    raise KeyboardInterrupt
                self.begin()
                if time.monotonic() - told >= TELLS:
                    told = time.monotonic()
                    self.tell()
                time.sleep(LOOKS)
                for proof in [it for it in self.running if it.process.poll() is not None]:
                    self.end(proof)
        finally:
            for proof in self.running:
                proof.stop()
                with contextlib.suppress(OSError):
                    proof.keep()


def main(words: list[str]) -> int:
    signals: list[int] = []
    for number in (signal.SIGINT, signal.SIGTERM, signal.SIGHUP):
        # nohup makes a hangup ignored.
        if signal.getsignal(number) != signal.SIG_IGN:
            signal.signal(number, lambda it, _: signals.append(it))
    goal = words[0] if words else record.PROGRAM
    target = TOP / record.place_of("proved", goal)
    found = record.current(TOP, goal)
    if found and found[1].kind == "proved":
        say(f"{goal} is proved and built: {target}")
        return 0
    say(f"proving and building {goal}, once: about {MINUTES[goal]} minutes on four processors ..")
    digest = record.digest_of(TOP, record.kit_line() or "", goal)
    try:
        target.unlink(missing_ok=True)
        record.record_place(target).unlink(missing_ok=True)
        NOTES.mkdir(parents=True, exist_ok=True)
        with tempfile.TemporaryDirectory(prefix="trdpd-", ignore_cleanup_errors=True) as folder:
            Build(pathlib.Path(folder), goal).prove(signals)
        record.write(TOP, "proved", digest, goal)
    except KeyboardInterrupt:
        say("interrupted; what is proved is kept")
        return 130
    except (Failed, record.Mismatch, graphlib.CycleError, OSError) as why:
        say(f"{why}")
        return 4
    say(f"proved and built: {target}")
    return 0


if __name__ == "__main__":
    sys.exit(main(sys.argv[1:]))
