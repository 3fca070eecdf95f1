"""Pages of docs/ that are played: their blocks, what is typed in them, and the folder in which it is typed.

test_page.py plays docs/CLIENTS.md, docs/PYTHON.md and docs/C.md, and docs/tools/play_tutorial plays docs/TUTORIAL.md.
A line of a block that begins with `$` is typed, and one with `#` by root. `doors$` is typed in the terminal of that
name, and `doors>` to the program that runs there. What follows, up to the next such line or the end of the block, is
printed.
"""
from __future__ import annotations

import contextlib
import os
import pathlib
import re
import signal
import subprocess
import tempfile
import textwrap
from collections.abc import Iterator, Sequence
from typing import NamedTuple

from testing import PROGRAM, TOP, has_ends, wait_until

BLOCK = re.compile(r"^```(\w+)\n(.*?)^```$|^((?:    [^\n]*\n|\n(?=    ))+)", re.MULTILINE | re.DOTALL)
PROMPT = re.compile(r"([a-z]\w*)?([$#>])(?: (.*))?")
# What has a command be one of the shell, and not a program with its words.
SHELL = re.compile(r"[|;<>]|^\w+=")
# What is printed in place of this may be anything.
ANY = ".."


class Step(NamedTuple):
    """What is typed: the number of the line in its block, the terminal, none where any will do, the sign, the text, and
    the lines that are printed."""

    line: int
    terminal: str
    sign: str
    text: str
    shown: list[str]

    @property
    def typed(self) -> str:
        """The line as the page has it."""
        return f"{self.terminal}{self.sign} {self.text}"


class Block(NamedTuple):
    """A block of a page: the number of its first line, its kind, none where it is indented, its text, and the
    paragraph before it."""

    line: int
    kind: str
    code: str
    before: str

    def steps(self) -> list[Step]:
        """What is typed in it, in its order."""
        steps: list[Step] = []
        for number, line in enumerate(self.code.splitlines()):
            if found := PROMPT.fullmatch(line):
                steps.append(Step(number, found[1] or "", found[2], found[3] or "", []))
            elif steps:
                steps[-1].shown.append(line)
        return steps


def blocks(text: str) -> Iterator[Block]:
    """The blocks of a page, in their order."""
    for found in BLOCK.finditer(text):
        kind, code, indented = found.groups()
        above = text[:found.start()]
        place = above.count("\n") + 2
        if indented:
            code = textwrap.dedent(indented)
            place += len(code) - len(code.lstrip("\n")) - 1
        before = " ".join(above.rstrip("\n").rpartition("\n\n")[2].splitlines())
        yield Block(place, kind or "", code.lstrip("\n"), before)


def pattern(shown: Sequence[str]) -> re.Pattern[str]:
    """What is printed where the page shows these lines: `..` in a line is any text, and as a line any lines."""
    lines = [r"(?:.*\n)*" if it == ANY else ".*".join(map(re.escape, it.split(ANY))) + r"\n" for it in shown]
    return re.compile("".join(lines))


class Folder:
    """A folder in which commands are typed, with the program as `run` and links to some of the project's files, and the
    processes that run there."""

    def __init__(self, links: Sequence[str]) -> None:
        self._made = tempfile.TemporaryDirectory()
        self.path = pathlib.Path(self._made.name)
        self._running: list[subprocess.Popen[str]] = []
        (self.path / "run").symlink_to(PROGRAM)
        for link in links:
            (self.path / link).parent.mkdir(parents=True, exist_ok=True)
            (self.path / link).symlink_to(TOP / link)

    def begin(self, command: str, stdin: int = subprocess.DEVNULL) -> subprocess.Popen[str]:
        """Types a command, which goes on beside this."""
        words = ["sh", "-c", command if SHELL.search(command) else f"exec {command}"]
        settings = {**os.environ, "PYTHONUNBUFFERED": "1", "PYTHONWARNINGS": "error"}
        process = subprocess.Popen(words, cwd=self.path, env=settings, text=True, stdout=subprocess.PIPE,
                                   stderr=subprocess.STDOUT, stdin=stdin, start_new_session=True)
        self._running.append(process)
        return process

    def type(self, command: str) -> list[str]:
        """Types a command. Answers what it prints until it ends."""
        said, _ = self.begin(command).communicate(timeout=60)
        return said.splitlines()

    def await_ports(self, process: subprocess.Popen[str], command: str) -> bool:
        """Waits until a daemon that was started by this command has all its ports. Answers whether it still runs."""
        path = self.path / command.split()[2]
        config = path.read_text() if path.is_file() else ""
        wait_until(lambda: process.poll() is not None or has_ends(process.pid, config), 30)
        return process.poll() is None

    def end_all(self) -> None:
        """Ends what still runs."""
        while self._running:
            process = self._running.pop()
            with contextlib.suppress(ProcessLookupError):
                os.killpg(process.pid, signal.SIGKILL)
            process.wait()
            for stream in (process.stdin, process.stdout):
                if stream is not None:
                    with contextlib.suppress(OSError):
                        stream.close()

    def close(self) -> None:
        """Ends what still runs, and removes the folder."""
        self.end_all()
        self._made.cleanup()
