#!/usr/bin/env python3
"""Writes what a run of .ci/run came to into out/gate.json.

    .ci/gate_record.py begin FOLDER            notes at which commit the run begins
    .ci/gate_record.py end FOLDER STAGE ..     writes the file; these are all stages of a whole run

.ci/stages says what is in FOLDER. `whole` in the file is true only if the checkout was clean and at the same commit at
the beginning and at the end, each stage passed, and nothing was skipped; `lacks` says what is missing. The status is 1,
with the reason, if the file cannot be written.
"""
from __future__ import annotations

import datetime
import json
import os
import pathlib
import platform
import re
import subprocess
import sys
from typing import Any

TOP = pathlib.Path(__file__).resolve().parent.parent
sys.path.insert(0, str(TOP / "package"))
sys.dont_write_bytecode = True
import record  # noqa: E402

RECORD = TOP / "out/gate.json"
# What `rt ci` prints.
PROVED = re.compile(r"^rt: (\w+) proved$", re.MULTILINE)
KEPT = re.compile(r"^rt: (\w+) is kept: ", re.MULTILINE)
EDITS = re.compile(r"^rt: ok; .*must-fail edits: (\d+) refused(?:, (\d+) of them only by a limit)?", re.MULTILINE)
TRIED = re.compile(r"^rt: ok; .* and (\d+) of the \d+ must-fail edits", re.MULTILINE)


def output_of(*words: str) -> str:
    """What a command prints; nothing if it fails or isn't there."""
    try:
        return subprocess.run(words, cwd=TOP, capture_output=True, text=True, check=True).stdout.strip()
    except (OSError, subprocess.CalledProcessError):
        return ""


def checkout() -> dict[str, Any]:
    """The commit, and whether no file differs from it and none is beside it."""
    # With --branch it prints one line more, which is there even if nothing differs.
    status = output_of("git", "status", "--porcelain", "--branch", "--untracked-files=normal").splitlines()
    return {"commit": output_of("git", "rev-parse", "HEAD"), "clean": len(status) == 1}


def host() -> dict[str, Any]:
    """The machine, and the compiler of the clients' tests."""
    found = re.search(r"^model name\s*: (.*)$", pathlib.Path("/proc/cpuinfo").read_text(), re.MULTILINE)
    return {
        "model": found[1].strip() if found else platform.machine(), "processors": len(os.sched_getaffinity(0)),
        "kernel": platform.release(), "compiler": (output_of("gcc", "--version").splitlines() or ["none"])[0],
    }


def stages_in(folder: pathlib.Path) -> list[dict[str, Any]]:
    """The stages that ran, each with how it ended, its minutes and the last line that it printed."""
    found = []
    for line in (folder / "stages").read_text("utf-8", "replace").splitlines():
        name, ended, tenths, last = line.split("\t", 3)
        found.append({"name": name, "ended": ended, "minutes": int(tenths) / 10, "last_line": last})
    return found


def proofs_in(text: str) -> dict[str, Any]:
    """What `rt ci` printed of crates and must-fail edits: the crates that it proved, and those that were kept; how many
    edits were refused, how many of them only by a limit of the prover, and how many were tried in this run."""
    edits, tried = EDITS.search(text), TRIED.search(text)
    refused = int(edits[1]) if edits else 0
    return {
        "proved": PROVED.findall(text), "kept": KEPT.findall(text), "edits_refused": refused,
        "edits_by_limit": int(edits[2] or 0) if edits else 0, "edits_tried": int(tried[1]) if tried else refused,
    }


def lacks(found: dict[str, Any], begun: dict[str, Any], wanted: list[str]) -> list[str]:
    """Why a run isn't whole; nothing if it is."""
    ended = {it["name"]: it["ended"] for it in found["stages"]}
    faults = [] if begun["clean"] and found["clean"] else ["the checkout was not clean"]
    faults += [] if begun["commit"] == found["commit"] else ["the commit changed during the run"]
    faults += [f"the stage {name} {ended.get(name, 'did not run')}" for name in wanted if ended.get(name) != "passed"]
    faults += [] if found["program"] else ["there is no proved program"]
    return faults + [f"something was skipped: {it}" for it in found["skipped"]]


def collected(folder: pathlib.Path, wanted: list[str]) -> dict[str, Any]:
    """All that is known of a run that ends now."""
    begun = json.loads((folder / "begun").read_text())
    proofs = folder / "proofs.said"
    program = record.current(TOP)
    proved = program[1] if program and program[1].kind == "proved" else None
    found = checkout() | {
        "date": datetime.datetime.now(datetime.timezone.utc).strftime("%Y-%m-%dT%H:%M:%SZ"),
        "kit": record.kit_line(), "host": host(), "stages": stages_in(folder),
        "skipped": sorted(set((folder / "skipped").read_text("utf-8", "replace").splitlines())),
        "proofs": proofs_in(proofs.read_text("utf-8", "replace") if proofs.exists() else ""),
        "program": proved.program if proved else None, "digest": proved.digest if proved else None,
    }
    faults = lacks(found, begun, wanted)
    return found | {"lacks": faults, "whole": not faults}


def main(words: list[str]) -> int:
    try:
        match words:
            case ["begin", folder]:
                (pathlib.Path(folder) / "begun").write_text(json.dumps(checkout()))
            case ["end", folder, *wanted] if wanted:
                text = json.dumps(collected(pathlib.Path(folder), wanted), indent=1)
                RECORD.parent.mkdir(exist_ok=True)
                part = RECORD.with_suffix(".part")
                part.write_text(f"{text}\n", "utf-8")
                part.replace(RECORD)
            case _:
                print("usage: .ci/gate_record.py begin FOLDER | end FOLDER STAGE ..", file=sys.stderr)
                return 2
    except (OSError, ValueError) as why:
        print(f"gate: out/gate.json is not written: {why}", file=sys.stderr)
        return 1
    return 0


if __name__ == "__main__":
    sys.exit(main(sys.argv[1:]))
