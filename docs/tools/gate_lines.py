"""What README.md and docs/TRACE.md say of the last whole run of CI, from docs/gate.json: for docs/tools/gate, and for
docs/tools/trace."""
from __future__ import annotations

import json
import pathlib
import textwrap
from typing import Any, NamedTuple

NONE = "No whole run of CI is recorded yet."
WIDTH = 120


class Fault(Exception):
    """Why a record is of no use."""


class Stage(NamedTuple):
    """A stage of a run: its name, its minutes, and the last line that it printed."""

    name: str
    minutes: float
    last_line: str


class Run(NamedTuple):
    """A whole run of .ci/run."""

    commit: str
    date: str
    """The day on which it ended, in UTC, as 2026-11-30."""
    kit: str
    """The kit, as `rt version` prints it."""
    host: dict[str, Any]
    """The machine: model, processors, kernel, compiler."""
    stages: list[Stage]
    proofs: dict[str, Any]
    """What was proved, kept and tried: `.ci/gate_record.py` says its parts."""
    program: str
    """The SHA-256 of the program."""


def run_of(text: str) -> Run:
    """The run of a record. Raises Fault, with the reason, if the record is not of a whole run."""
    try:
        found = json.loads(text)
        if found["whole"] is not True or found["lacks"]:
            raise Fault(f"the run was not whole: {'; '.join(found['lacks'])}")
        stages = [Stage(it["name"], float(it["minutes"]), it["last_line"]) for it in found["stages"]]
        return Run(found["commit"], found["date"][:10], found["kit"], found["host"], stages, found["proofs"],
                   found["program"])
    except (ValueError, KeyError, TypeError) as why:
        raise Fault(f"it is no record of .ci/run: {type(why).__name__}: {why}") from None


def last_run(top: pathlib.Path) -> Run | None:
    """The run of docs/gate.json; None if there is no such file. Raises Fault."""
    path = top / "docs/gate.json"
    return run_of(path.read_text("utf-8")) if path.exists() else None


def sentence(run: Run | None) -> str:
    """The sentence of README."""
    return f"CI passed whole on commit `{run.commit[:12]}` ({run.date})." if run else NONE


def page_lines(run: Run | None) -> str:
    """What docs/TRACE.md says of the run, in the part that docs/tools/trace writes."""
    if run is None:
        return NONE
    host, proofs = run.host, run.proofs
    text = " ".join([
        sentence(run),
        f"The run took {sum(it.minutes for it in run.stages):.0f} minutes on {host['processors']} processors"
        f" ({host['model']}, kernel {host['kernel']}, {host['compiler']}), with {run.kit}.",
        f"In this run {len(proofs['proved'])} crates were proved, and {len(proofs['kept'])} were kept as earlier runs"
        f" on that machine had proved them. The prover refused {proofs['edits_refused']} mutants, of which"
        f" {proofs['edits_tried']} were tried in this run. The program's SHA-256 is {run.program}."
        " [gate.json](gate.json) has the whole record.",
    ])
    rows = [f"| {it.name} | `{it.last_line}` | {it.minutes:.1f} |" for it in run.stages]
    table = "\n".join(["| Stage | Its last line | Minutes |", "|---|---|---|", *rows])
    return f"{textwrap.fill(text, WIDTH, break_long_words=False, break_on_hyphens=False)}\n\n{table}"
