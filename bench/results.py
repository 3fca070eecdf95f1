"""Writes what a script of bench/ has measured into bench/results/, and reads it for bench/tables.

A file has the figures, the commit, the date, the machine and the command; how many minutes the script took; and whether
the program that was measured is proved.
"""
from __future__ import annotations

import argparse
import dataclasses
import datetime
import json
import math
import os
import pathlib
import platform
import re
import shlex
import shutil
import subprocess
import sys
import time
from collections.abc import Mapping
from typing import Any

TOP = pathlib.Path(__file__).resolve().parent.parent
sys.path.insert(0, str(TOP / "package"))
import record  # noqa: E402

FOLDER = TOP / "bench/results"
PROGRAM = TOP / record.place_of("proved")
"""The program that ./run prove makes."""
BEGUN = time.monotonic()
"""When the script began, as far as this module knows."""
DIGITS = 4
"""Significant digits of a figure that is no whole number: a measurement has no more."""


class Fault(Exception):
    """Why a result cannot be used."""


@dataclasses.dataclass(frozen=True)
class Machine:
    """The machine that a result was measured on."""

    processor: str
    """The model, as /proc/cpuinfo names it."""
    processors: int
    kernel: str
    hypervisor: str | None
    """The hypervisor's name, `unnamed` if the machine only says that there is one, or None."""


@dataclasses.dataclass(frozen=True)
class Result:
    """What a file has."""

    name: str
    figures: Mapping[str, Any]
    date: str
    """The day in UTC, as 2026-11-30."""
    machine: Machine
    minutes: float
    """How long the script took."""
    proved: bool


def arguments(doc: str | None) -> argparse.ArgumentParser:
    """A parser whose help is what a script says of itself, with the option by which it saves its result."""
    parser = argparse.ArgumentParser(description=doc, formatter_class=argparse.RawDescriptionHelpFormatter)
    parser.add_argument("--save", action="store_true", help="write the result into bench/results/")
    return parser


def is_proved(program: pathlib.Path) -> bool:
    """Whether it is the program of this project that was proved of the sources as they are now."""
    found = record.current(TOP)
    return found is not None and found[1].kind == "proved" and found[0].resolve() == program.resolve()


def rounded(figure: object) -> object:
    """A figure as a file has it: without digits that say nothing, and None instead of what is no number."""
    match figure:
        case float():
            return float(f"{figure:.{DIGITS}g}") if math.isfinite(figure) else None
        case Mapping():
            return {str(key): rounded(it) for key, it in figure.items()}
        case list() | tuple():
            return [rounded(it) for it in figure]
        case _:
            return figure


def hypervisor() -> str | None:
    """What this machine runs on."""
    if shutil.which("systemd-detect-virt"):
        said = subprocess.run(["systemd-detect-virt", "--vm"], capture_output=True, text=True).stdout.strip()
        if said not in ("", "none"):
            return said
    return "unnamed" if re.search(r"(?m)^flags\s*:.*\bhypervisor\b", processor_text()) else None


def processor_text() -> str:
    """What the system says of the processors."""
    return pathlib.Path("/proc/cpuinfo").read_text("utf-8")


def machine() -> Machine:
    """This machine."""
    model = re.search(r"(?m)^model name\s*: *(.+)$", processor_text())
    count = len(os.sched_getaffinity(0))
    return Machine(model[1] if model else platform.machine(), count, platform.release(), hypervisor())


def commit() -> str:
    """The commit of this tree, with `and changes` if a file differs from it that is no result."""
    def git(*words: str) -> str:
        return subprocess.run(["git", "-C", str(TOP), *words], capture_output=True, text=True).stdout.strip()

    if not (TOP / ".git").exists() or not (found := git("rev-parse", "HEAD")):
        return "unknown"
    differs = git("status", "--porcelain", "--untracked-files=no", "--", ".", f":!{FOLDER.relative_to(TOP)}")
    return f"{found} and changes" if differs else found


def command() -> str:
    """The command by which this script was started, with its path from the top of the project."""
    script = pathlib.Path(sys.argv[0]).resolve()
    name = str(script.relative_to(TOP)) if script.is_relative_to(TOP) else script.name
    return shlex.join([name, *sys.argv[1:]])


def save(name: str, figures: Mapping[str, object], *, proved: bool) -> pathlib.Path:
    """Writes what was measured into bench/results/NAME.json, prints that, and returns the file's path. `proved` is
    whether the program or the crate that was measured is proved."""
    found = {
        "figures": rounded(figures),
        "commit": commit(),
        "date": datetime.datetime.now(datetime.UTC).date().isoformat(),
        "machine": dataclasses.asdict(machine()),
        "command": command(),
        "minutes": rounded((time.monotonic() - BEGUN) / 60),
        "proved": proved,
    }
    FOLDER.mkdir(exist_ok=True)
    path = FOLDER / f"{name}.json"
    part = path.with_suffix(".part")
    part.write_text(json.dumps(found, indent=2, sort_keys=True, allow_nan=False) + "\n", "utf-8")
    part.replace(path)
    print(f"saved: {path.relative_to(TOP)}")
    return path


def load(name: str, folder: pathlib.Path = FOLDER) -> Result | None:
    """What was measured last under that name; None if nothing was. Raises Fault if the file cannot be read."""
    path = folder / f"{name}.json"
    if not path.exists():
        return None
    try:
        found = json.loads(path.read_text("utf-8"))
        return Result(name, found["figures"], found["date"], Machine(**found["machine"]), found["minutes"],
                      found["proved"])
    except (OSError, ValueError, KeyError, TypeError) as why:
        raise Fault(f"{path.name} is no result: {type(why).__name__}: {why}") from None
