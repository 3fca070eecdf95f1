#!/usr/bin/env python3
"""How long the first proof takes: `./run prove` in a clone of this project, where nothing is kept.

    bench/proof.py [--save]                       30 to 60 minutes on four processors; needs the Rattle kit and git

The clone has the last commit, so no file may differ from it. Prints the minutes that the proof took, those of processor
time of all its processes, and those that the host took away. What `./run prove` prints goes to standard error.
"""
from __future__ import annotations

import os
import pathlib
import resource
import subprocess
import sys
import tempfile
import time

import results

TICKS = os.sysconf("SC_CLK_TCK")
STOLEN = 8                                        # Linux: the place in a line of /proc/stat of what the host took away


def stolen() -> float:
    """The processor time that the host has taken away from this machine, in seconds."""
    return int(pathlib.Path("/proc/stat").read_text("ascii").split()[STOLEN]) / TICKS


def prove(folder: pathlib.Path) -> None:
    """Proves and builds the program in a clone."""
    subprocess.run(["git", "clone", "-q", results.TOP, folder], check=True)
    if subprocess.run(["./run", "prove"], cwd=folder, stdout=sys.stderr).returncode:
        sys.exit("proof.py: ./run prove failed")


def main() -> None:
    given = results.arguments(__doc__).parse_args()
    if results.commit().endswith(" and changes"):
        sys.exit("proof.py: a file differs from the last commit, which is what is proved")
    began, lost = time.monotonic(), stolen()
    with tempfile.TemporaryDirectory() as folder:
        prove(pathlib.Path(folder) / "clone")
        minutes, lost = (time.monotonic() - began) / 60, (stolen() - lost) / 60
    used = resource.getrusage(resource.RUSAGE_CHILDREN)
    busy = (used.ru_utime + used.ru_stime) / 60
    processors = len(os.sched_getaffinity(0))
    print(f"{minutes:.1f} minutes, {busy:.1f} of processor time: {busy / minutes:.1f} of {processors} processors busy; "
          f"the host took away {lost:.1f}")
    if given.save:
        results.save("proof", {"minutes": minutes, "processor_minutes": busy, "stolen_minutes": lost,
                               "processors": processors}, proved=True)


if __name__ == "__main__":
    main()
