"""How many system calls a process makes, as perf or strace counts them."""
from __future__ import annotations

import os
import re
import shutil
import signal
import subprocess
import tempfile
from collections.abc import Callable
from functools import partial

from daemons.nodes import end_with

COUNT = ("perf", "stat", "-x", ",", "-e", "raw_syscalls:sys_enter")
NONE = float("nan")


def perf_counts() -> bool:
    """Whether perf is there and may count system calls."""
    if not shutil.which("perf"):
        return False
    ran = subprocess.run([*COUNT, "--", "true"], capture_output=True, text=True)
    return count_of(ran.stderr) is not None


def count_of(said: str) -> int | None:
    """The number that perf has printed, if it could count."""
    counts = [line.split(",")[0] for line in said.splitlines() if "sys_enter" in line]
    return int(counts[0]) if counts and counts[0].isdigit() else None


def started(words: list[str]) -> subprocess.Popen[str]:
    """A command that ends with the script."""
    return subprocess.Popen(words, stdin=subprocess.PIPE, stdout=subprocess.PIPE, stderr=subprocess.PIPE, text=True,
                            bufsize=1, preexec_fn=partial(end_with, os.getpid()))


def calls_by_perf(process: int, meanwhile: Callable[[], int]) -> float:
    """The system calls of a process meanwhile, divided by the number that `meanwhile` returns; not a number if perf
    fails."""
    # perf counts while its command runs. cat copies a line as soon as it runs, and ends with its input.
    with started([*COUNT, "-p", str(process), "--", "cat"]) as perf:
        assert perf.stdin and perf.stdout and perf.stderr
        try:
            perf.stdin.write("\n")
            perf.stdout.readline()
            number = meanwhile()
            perf.stdin.close()
            count = count_of(perf.stderr.read())
        except BrokenPipeError:
            count = None
        finally:
            end(perf)
    return NONE if count is None else count / max(number, 1)


def calls_by_strace(process: int, meanwhile: Callable[[], int]) -> dict[str, float]:
    """The system calls of a process meanwhile by their names, divided by the number that `meanwhile` returns; none if
    strace fails."""
    with tempfile.NamedTemporaryFile("r") as output:
        with started(["strace", "-f", "-c", "-o", output.name, "-p", str(process)]) as strace:
            assert strace.stderr
            try:
                if "attached" not in strace.stderr.readline():
                    return {}
                number = meanwhile()
                strace.send_signal(signal.SIGINT)
                strace.communicate(timeout=5)
            except subprocess.TimeoutExpired:
                return {}
            finally:
                end(strace)
        rows = re.findall(r"^\s*[\d.]+\s+[\d.]+\s+\d+\s+(\d+)\s+(?:\d+\s+)?(\w+)$", output.read(), re.MULTILINE)
    return {name: int(count) / max(number, 1) for count, name in rows if name != "total"}


def end(process: subprocess.Popen[str]) -> None:
    """Ends a command, if it runs."""
    if process.poll() is None:
        process.kill()
