"""Runs a program of which one call is refused: a request for memory, a read or a write."""
from __future__ import annotations

import contextlib
import os
import re
import subprocess
import tempfile
from collections.abc import Iterator
from typing import Any

BENCH = os.path.dirname(os.path.abspath(__file__))
# The kind of a call that is refused, and which one of that kind it is.
Refused = tuple[str, int]
# What refused_calls.c receives beside the call that is refused.
SETTINGS = ("read_piece", "write_piece", "write_every", "refused_error")


class Library:
    """What is between a program and its system; made by built()."""

    def __init__(self, path: str) -> None:
        self.path = path

    def run(self, words: list[str], refused: Refused | None = None,
            **settings: Any) -> subprocess.CompletedProcess[str]:
        """Runs the words, where the call of that kind and number is refused, as ("memory", 3), and answers as
        subprocess.run does.

        The settings are READ_PIECE, WRITE_PIECE and WRITE_EVERY of refused_calls.c, in small letters, and those of
        subprocess.run.
        """
        pieces = {name: settings.pop(name) for name in SETTINGS if name in settings}
        environment = self.environment(refused, **pieces)
        return subprocess.run(words, env=environment, capture_output=True, text=True, errors="replace", timeout=60,
                              **settings)

    def environment(self, refused: Refused | None = None, **pieces: int) -> dict[str, str]:
        """The environment of a program of which that call is refused, with these settings of refused_calls.c in small
        letters."""
        environment = {name: text for name, text in os.environ.items()
                       if name != "REFUSED" and name.lower() not in SETTINGS}
        environment["LD_PRELOAD"] = self.path
        if refused is not None:
            environment["REFUSED"] = f"{refused[0]} {refused[1]}"
        environment.update({name.upper(): str(setting) for name, setting in pieces.items()})
        return environment

    def count(self, words: list[str], kind: str, **settings: Any) -> tuple[int, subprocess.CompletedProcess[str]]:
        """How many calls of that kind there are where none is refused, and what the program said then."""
        ran = self.run(words, **settings)
        told = re.findall(rf"^calls {kind} (\d+)\n", ran.stderr, re.MULTILINE)
        ran.stderr = re.sub(r"^calls \w+ \d+\n", "", ran.stderr, flags=re.MULTILINE)
        return int(told[0]) if told else 0, ran


@contextlib.contextmanager
def built() -> Iterator[Library]:
    """The library, which gcc builds of refused_calls.c."""
    with tempfile.TemporaryDirectory() as folder:
        path = os.path.join(folder, "refused_calls.so")
        words = ["gcc", "-Wall", "-Wextra", "-O2", "-shared", "-fPIC", "-o", path, f"{BENCH}/refused_calls.c", "-ldl"]
        subprocess.run(words, check=True)
        yield Library(path)
