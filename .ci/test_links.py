#!/usr/bin/env python3
"""Which links and names of pages docs/tools/check_links takes for faults: in a small tree of pages.

    .ci/test_links.py

Ends with a line as `links: 4 passed, 0 failed`, and with status 1 if one fails.
"""
from __future__ import annotations

import pathlib
import shutil
import subprocess
import sys
import tempfile
import unittest

TOP = pathlib.Path(__file__).resolve().parent.parent
TOOL = "docs/tools/check_links"
# The tree: docs/README.md is a page in which names have to be links, and bench/README.md is none.
TREE = {
    "docs/DAEMON.md": "# The daemon, `trdpd daemon`\n\n## Lines\n\n```text\n# No heading\n```\n\n## Lines ##\n\n"
                      "### See [`Lines`](#lines-1): what_is_lost?\n",
    "bench/README.md": "# Bench\n", "bench/one.py": "print()\n", "docs/REMOVED.md": "# Removed\n",
}
# Each line is a fault, where it stands in a page by itself; and why.
FAULTS = {
    "[a](SCRIPT.md)": "SCRIPT.md: no such file in git",
    "[a](REMOVED.md)": "REMOVED.md: no such file in git",
    "[a](UNKNOWN.md)": "UNKNOWN.md: no such file in git",
    "[a](DAEMON.md/)[b](README.md) [c](Daemon.md)": "Daemon.md: no such file in git",
    "![a](node.svg)": "node.svg: no such file in git",
    "[a](docs/DAEMON.md)": "docs/DAEMON.md: no such file in git",
    "[a](/docs/DAEMON.md)": "/docs/DAEMON.md: no such file in git",
    "[a](../../DAEMON.md)": "../../DAEMON.md: no such file in git",
    "[a]()": ": no such file in git",
    "[`a`, and\nb](DAEMON.md#none)": "DAEMON.md#none: docs/DAEMON.md has no such heading",
    "[a](DAEMON.md#)": "DAEMON.md#: docs/DAEMON.md has no such heading",
    "[a](DAEMON.md#Lines)": "DAEMON.md#Lines: docs/DAEMON.md has no such heading",
    "[a](DAEMON.md#lines-2)": "DAEMON.md#lines-2: docs/DAEMON.md has no such heading",
    "[a](DAEMON.md#no-heading)": "DAEMON.md#no-heading: docs/DAEMON.md has no such heading",
    "[a](../bench/one.py#L1)": "../bench/one.py#L1: bench/one.py has no such heading",
    "[a](../bench#bench)": "../bench#bench: bench has no such heading",
    "[a](#lines)": "#lines: docs/README.md has no such heading",
    "[a][one]": "][one]: write [text](target)",
    "[one]: ../bench/one.py": "[one]: ../bench/one.py: write [text](target)",
    "<a href='one.py'>a</a>": "<a href='one.py'>a</a>: write [text](target)",
    "[![a](DAEMON.md)](one.py)": "](one.py): write [text](target)",
    "See docs/DAEMON.md.": "docs/DAEMON.md: make it a link",
    "See (`DAEMON.md`)": "DAEMON.md: make it a link",
    "`a` ../README.md `b`": "../README.md: make it a link",
}
# None of these lines is a fault.
FINE = """
[a](DAEMON.md) [docs/DAEMON.md](../docs/DAEMON.md) [b](../bench/one.py) [c](../bench) [d](..) [`e[0]`, and
more](../bench/README.md#bench) ![f](DAEMON.md) [g](https://example.org/none.md#none) [h](mailto:x@example.org)

## The fine ones

[a](DAEMON.md#the-daemon-trdpd-daemon) [b](DAEMON.md#lines) [c](DAEMON.md#lines-1) [d](#the-fine-ones)
[e](DAEMON.md#see-lines-what_is_lost) `[f](one.py)` `less docs/DAEMON.md` `event.md`, DAEMON

    less docs/DAEMON.md   # [a](SCRIPT.md)

```text
DAEMON.md [a](SCRIPT.md)
```
"""


class Links(unittest.TestCase):
    """A tree of a few pages, which git knows."""

    def setUp(self) -> None:
        scratch = tempfile.TemporaryDirectory()
        self.addCleanup(scratch.cleanup)
        self.top = pathlib.Path(scratch.name)
        for path, text in {**TREE, "docs/README.md": "# Pages\n"}.items():
            self.write(path, text)
        (self.top / TOOL).parent.mkdir(parents=True)
        shutil.copy(TOP / TOOL, self.top / TOOL)
        for words in (("init", "-q"), ("add", "-A")):
            subprocess.run(["git", *words], cwd=self.top, check=True, timeout=60)
        self.write("docs/UNKNOWN.md", "# Git does not know it\n")
        (self.top / "docs/REMOVED.md").unlink()

    def write(self, path: str, text: str) -> None:
        """Writes a file of the tree, and its folder."""
        (self.top / path).parent.mkdir(parents=True, exist_ok=True)
        (self.top / path).write_text(text)

    def check(self) -> tuple[int, list[str]]:
        """The status of the tool in the tree, and the lines that it prints."""
        ran = subprocess.run([self.top / TOOL], cwd=self.top, stdout=subprocess.PIPE, stderr=subprocess.STDOUT,
                             text=True, timeout=60)
        return ran.returncode, ran.stdout.splitlines()

    def test_each_fault_is_found_on_its_line(self) -> None:
        for line, fault in FAULTS.items():
            with self.subTest(line):
                self.write("docs/README.md", f"# Pages\n\n`a` and [b](DAEMON.md)\n{line}\n")
                status, lines = self.check()
                self.assertEqual((status, lines[:-1]), (1, [f"docs/README.md:4: {fault}"]))

    def test_what_is_fine_is_no_fault(self) -> None:
        self.write("docs/README.md", FINE)
        self.assertEqual(self.check(), (0, ["check_links: 13 links in 4 pages, 0 faults"]))

    def test_all_faults_are_printed(self) -> None:
        self.write("docs/README.md", "[a](SCRIPT.md)\n\n[a](DAEMON.md#none) DAEMON.md\n")
        self.write("SECURITY.md", "[a](SCRIPT.md)\n")
        self.assertEqual(self.check(), (1, [
            "SECURITY.md:1: SCRIPT.md: no such file in git",
            "docs/README.md:1: SCRIPT.md: no such file in git",
            "docs/README.md:3: DAEMON.md#none: docs/DAEMON.md has no such heading",
            "docs/README.md:3: DAEMON.md: make it a link",
            "check_links: 4 links in 5 pages, 4 faults"]))


if __name__ == "__main__":
    ran = unittest.main(exit=False, verbosity=0).result
    failed = len(ran.failures) + len(ran.errors)
    print(f"links: {ran.testsRun - failed} passed, {failed} failed")
    sys.exit(failed > 0)
