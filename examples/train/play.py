#!/usr/bin/env python3
"""A train on one machine: five devices that talk by multicast groups, and what each of them sees when something breaks.

    examples/train/play.py [PROGRAM]

PROGRAM is by default that of the environment's TRDPD, or crates/trdpd/out/trdpd, which ./run prove builds.

Each device is a network namespace with a link to a bridge, a daemon with a configuration of this folder, and an
application on the client in Python, which is a process of its own. Two door controllers, of which one leads, send the
status of the doors to a group; two displays and diagnosis listen. The play needs no root and leaves nothing: all is in
a user, a network and a process namespace that end with this program. Where the system refuses these, the program
prints `train: skipped, WHY`, and ends with status 0.

    play_network.py     the bridge, the namespaces and the links
    play_device.py      a device: its link, its daemon, and what its application reports
    play_train.py       the five devices, and how to wait for what they report
    play_steps.py       the steps, and the lines that each prints
    play_compare.py     what the steps compare

Prints a line or more for each step, and ends with status 1 where one doesn't show what it should. On a busy machine
telegrams are late: a step in which a device reports a silence that it shouldn't is repeated, twice at most.
"""
from __future__ import annotations

import os
import pathlib
import shutil
import signal
import subprocess
import sys
import tempfile
import time
from types import FrameType
from typing import NoReturn

HERE = pathlib.Path(__file__).resolve().parent
TOP = HERE.parent.parent
sys.path.insert(0, str(TOP / "clients/python"))
from play_compare import Unsteady, must_be_calm  # noqa: E402
from play_device import Differs  # noqa: E402
from play_network import WAIT, Refuses  # noqa: E402
from play_steps import STEPS, Step  # noqa: E402
from play_train import Ended, Train  # noqa: E402
from trdp_slot import SlotError  # noqa: E402

# The processes in these end with the first of them, which ends with unshare.
NAMESPACES = ["unshare", "--user", "--map-root-user", "--net", "--pid", "--fork", "--kill-child"]


def play_step(train: Train, step: Step) -> bool:
    """Plays a step, three times at most, and prints what it shows. Returns whether that is what it should."""
    name = step.show.__name__
    for tries_left in (2, 1, 0):
        train.steady()
        try:
            begin = time.monotonic()
            lines = step.show(train)
            must_be_calm(train.devices, begin, step.exceptions)
            print(*lines, sep="\n", flush=True)
            return True
        except Unsteady as fault:
            again = f"{name} once more" if tries_left else f"{name} differs, three times"
            print(f"train: {again}: {fault}", flush=True)
        except (Differs, Refuses, SlotError) as fault:
            print(f"train: {name} differs: {fault}", flush=True)
            return False
    return False


def play(program: str, folder: pathlib.Path) -> int:
    """Plays all steps, in the namespaces of this process. Returns the exit status."""
    try:
        train = Train(program, folder)
    except (Refuses, OSError) as fault:
        print(f"train: skipped, {fault}")
        return 0
    try:
        print("A train of five devices: doors 1 leads, doors 2 follows; display 1, display 2 and diagnosis listen.",
              flush=True)
        train.start()
        differ = sum(not play_step(train, step) for step in STEPS)
        seconds = time.monotonic() - train.begin
        print(f"train: {len(STEPS)} steps played in {seconds:.0f} s, {differ} differ")
        return int(differ > 0)
    except (Differs, Refuses, SlotError) as fault:
        print(f"train: it isn't as it should be at the beginning of a step: {fault}")
        return 1
    finally:
        train.end()


def is_refused() -> str:
    """Why the train can't be played on this machine; nothing where it can."""
    for program in ("unshare", "nsenter", "ip"):
        if not shutil.which(program):
            return f"{program} isn't there"
    tried = subprocess.run([*NAMESPACES, "true"], stdin=subprocess.DEVNULL, capture_output=True, text=True)
    return (tried.stderr.strip().splitlines() or ["unshare fails"])[0] if tried.returncode else ""


def surround(program: str) -> int:
    """Plays the train in namespaces of its own. They end when this process does, however it ends."""
    if why := is_refused():
        print(f"train: skipped, {why}")
        return 0
    with tempfile.TemporaryDirectory() as folder:
        words = [*NAMESPACES, sys.executable, str(HERE / "play.py"), program, folder]
        # The process inside ends when its standard input does.
        with subprocess.Popen(words, stdin=subprocess.PIPE, start_new_session=True) as played:
            try:
                return int(played.wait() != 0)
            finally:
                assert played.stdin is not None
                played.stdin.close()
                try:
                    played.wait(WAIT)
                except subprocess.TimeoutExpired:
                    played.kill()


def stop(number: int, frame: FrameType | None) -> NoReturn:
    """Ends this process by a signal, as a shell would say it."""
    sys.exit(128 + number)


def main(words: list[str]) -> int:
    """Plays the train of a program; with a folder too, in the namespaces that the first process has made."""
    if len(words) == 2:
        try:
            return play(words[0], pathlib.Path(words[1]))
        except Ended:
            return 1
    for number in (signal.SIGINT, signal.SIGTERM, signal.SIGHUP):
        signal.signal(number, stop)
    program = (words or [os.environ.get("TRDPD") or str(TOP / "crates/trdpd/out/trdpd")])[0]
    if not os.access(program, os.X_OK):
        print(f"train: there is no program {program}: ./run prove builds it")
        return 1
    return surround(os.path.abspath(program))


if __name__ == "__main__":
    sys.exit(main(sys.argv[1:]))
