#!/usr/bin/env python3
"""What .ci/run and .ci/quick end with, and which of their runs docs/tools/gate takes into the pages: in a small tree,
whose stages and whose kit are made up here.

    .ci/test_gate.py

Ends with a line as `gate: 4 passed, 0 failed`, and with status 1 if one fails.
"""
from __future__ import annotations

import json
import os
import pathlib
import shutil
import subprocess
import sys
import tempfile
import unittest
from typing import Any

TOP = pathlib.Path(__file__).resolve().parent.parent
COPIED = (".ci/run", ".ci/quick", ".ci/stages", ".ci/gate_record.py", "package/record.py", "docs/tools/gate",
          "docs/tools/gate_lines.py")
STAGES = (".ci/slips", "examples/play", "rows/play", "rows/forms", "examples/lossy/play", "bench/checks",
          "clients/check", "clients/c/node/check", "docs/tools/play_tutorial")
# A stage prints what it plays. It fails, or skips a tool, if a file says so.
STAGE = """#!/bin/sh
echo "$0 ${TRDPD-}$*"
if [ "$0" = clients/check ] && [ -e "$SCRATCH/skips" ]; then echo "clients: 1 skipped: tshark"; fi
if [ "$0" = rows/play ] && [ -e "$SCRATCH/fails" ]; then exit 1; fi
echo "it: 3 passed, 0 failed"
"""
RUN = """#!/bin/sh
if [ "$*" = "build library" ]; then exit; fi
digest=$(package/record.py digest)
mkdir -p out/unproved
printf 'one\\n' > out/unproved/trdpd
chmod +x out/unproved/trdpd
package/record.py write unproved "$digest"
"""
RT = """#!/bin/sh
if [ "$1" = lib ]; then mkdir -p out && echo a library > out/libtrdp_node.a && exit; fi
mkdir -p crates/trdpd/out
printf 'two\\n' > crates/trdpd/out/trdpd
chmod +x crates/trdpd/out/trdpd
if [ -e "$SCRATCH/changes" ]; then echo >> crates/trdpd/src/main.rt; fi
echo "rt: low is kept: an earlier run on this machine proved the same files over the same libraries"
echo "fn trdpd::main: proved"
echo "rt: trdpd proved"
echo "rt: trdpd: its tests are proved"
printf 'rt: ok; handles allowed: Net; must-fail edits: 7 refused, 2 of them only by a limit; done in this run: '
echo "2 of the 3 proofs (of crates and of their tests) and 5 of the 7 must-fail edits; the others are kept"
echo "9 passed, 0 failed"
"""
TRACE = """#!/usr/bin/env python3
import pathlib, gate_lines
top = pathlib.Path(__file__).resolve().parents[2]
(top / "docs/TRACE.md").write_text(f"One.\\n\\n{gate_lines.page_lines(gate_lines.last_run(top))}\\n\\nTwo.\\n")
"""
TREE = {
    "HANDLES": "Handles allowed: Net.\n", "crates.txt": "low:\ntrdpd: low\ntrdp_node: low\n",
    ".gitignore": "out/\n__pycache__/\n",
    "crates/low/src/lib.rt": "fn low() {}\n", "crates/trdpd/src/main.rt": "fn main() {}\n",
    "crates/trdp_node/src/lib.rt": "fn node() {}\n",
    "README.md": "A page.\n <!-- docs/tools/gate writes this line -->\n",
}
SCRIPTS = {**dict.fromkeys(STAGES, STAGE), "run": RUN, "docs/tools/trace": TRACE}
AUTHOR = {f"GIT_{who}_{what}": "x@example.org" for who in ("AUTHOR", "COMMITTER") for what in ("NAME", "EMAIL")}


class Gate(unittest.TestCase):
    """A tree that is a clean checkout, and a kit."""

    def setUp(self) -> None:
        scratch = tempfile.TemporaryDirectory()
        self.addCleanup(scratch.cleanup)
        self.scratch = pathlib.Path(scratch.name)
        self.top = self.scratch / "tree"
        for path, text in TREE.items():
            self.write(path, text)
        for path, text in SCRIPTS.items():
            self.write(path, text).chmod(0o755)
        for path in COPIED:
            (self.top / path).parent.mkdir(parents=True, exist_ok=True)
            shutil.copy(TOP / path, self.top / path)
        self.write("../kit/KIT-ID", "made-up-kit logic 0123456789abcdef\n")
        self.write("../kit/bin/rt", RT).chmod(0o755)
        self.said("git", "init", "-q")
        self.said("docs/tools/gate")
        self.commit()

    def write(self, path: str, text: str) -> pathlib.Path:
        """Writes a file of the tree, and its folder."""
        place = self.top / path
        place.parent.mkdir(parents=True, exist_ok=True)
        place.write_text(text)
        return place

    def run_words(self, *words: str) -> tuple[int, list[str]]:
        """The status of a command in the tree, and the lines that it prints."""
        variables = {it: value for it, value in os.environ.items() if it not in ("RT", "TRDPD", "TRDP_ALL_TOOLS")}
        variables |= AUTHOR | {"SCRATCH": str(self.scratch), "PATH": f"{self.scratch}/kit/bin:{variables['PATH']}"}
        ran = subprocess.run(words, cwd=self.top, env=variables, stdout=subprocess.PIPE, stderr=subprocess.STDOUT,
                             text=True, timeout=60)
        return ran.returncode, ran.stdout.splitlines()

    def said(self, *words: str) -> list[str]:
        """The lines that a command in the tree prints, which ends with status 0."""
        status, lines = self.run_words(*words)
        self.assertEqual(status, 0, lines)
        return lines

    def commit(self) -> str:
        """Commits what has changed. Answers the first digits of the commit."""
        self.said("git", "add", "-A")
        self.said("git", "commit", "-qm", "it")
        return self.said("git", "rev-parse", "HEAD")[0][:12]

    def record(self) -> dict[str, Any]:
        """The record of the last run."""
        found = json.loads((self.top / "out/gate.json").read_text())
        assert isinstance(found, dict)
        return found

    def test_a_whole_run_is_in_the_pages(self) -> None:
        commit = self.said("git", "rev-parse", "HEAD")[0][:12]
        self.assertIn("No whole run of CI is recorded yet.", (self.top / "README.md").read_text())
        lines = self.said(".ci/run")
        self.assertRegex(lines[-1], "^gate: 10 stages, 0 failed, [0-9]+ minutes$")
        self.assertIn(f"rows/play {self.top}/crates/trdpd/out/trdpd", lines)
        found = self.record()
        kit = "made-up-kit logic 0123456789abcdef"
        self.assertEqual((found["whole"], found["lacks"], found["kit"]), (True, [], kit))
        edits = {"edits_refused": 7, "edits_by_limit": 2, "edits_tried": 5}
        self.assertEqual(found["proofs"], {"proved": ["trdpd"], "kept": ["low"], **edits})
        self.said("docs/tools/gate", "--take")
        readme = (self.top / "README.md").read_text()
        self.assertRegex(readme, rf"\nCI passed whole on commit `{commit}` \(2[-0-9]+\)\. <")
        self.assertIn("\n| proofs | `9 passed, 0 failed` |", (self.top / "docs/TRACE.md").read_text())
        self.commit()
        self.assertRegex(self.said("docs/tools/gate", "--check")[0], rf"`{commit}` \(2[-0-9]+\); nothing but the pages")
        self.write("crates/low/src/lib.rt", "fn other() {}\n")
        self.assertIn("files changed since, other than the pages: 1", self.said("docs/tools/gate", "--check")[0])
        self.write("README.md", readme.replace(commit, commit[::-1]))
        self.assertEqual(self.run_words("docs/tools/gate", "--check")[0], 1)

    def test_a_run_that_is_not_whole_is_not_taken(self) -> None:
        for path in ("untracked", "../skips", "../fails"):
            self.write(path, "")
        status, lines = self.run_words(".ci/run")
        self.assertEqual((status, lines[-1][:26]), (1, "gate: 10 stages, 1 failed,"))
        self.assertEqual(self.record()["lacks"], ["the checkout was not clean", "the stage rows FAILED",
                                                  "something was skipped: clients: 1 skipped: tshark"])
        status, lines = self.run_words("docs/tools/gate", "--take")
        self.assertEqual((status, lines[0][:53]), (1, "gate: out/gate.json is not taken: the run was not who"))
        self.assertFalse((self.top / "docs/gate.json").exists())

    def test_a_source_that_changes_during_the_proof_fails_it(self) -> None:
        self.write("../changes", "")
        status, lines = self.run_words(".ci/run")
        self.assertEqual((status, lines[-1][:25]), (1, "gate: 2 stages, 1 failed,"))
        self.assertIn("a source has changed meanwhile", lines[-2])
        self.assertIn("the stage clients did not run", self.record()["lacks"])

    def test_quick_plays_the_program_without_a_proof(self) -> None:
        lines = self.said(".ci/quick")
        self.assertRegex(lines[-1], "^quick: 8 stages, 0 failed, [0-9]+ minutes$")
        for stage in ("rows/play ", "clients/check ", "docs/tools/play_tutorial "):
            self.assertIn(f"{stage}{self.top}/out/unproved/trdpd", lines)


if __name__ == "__main__":
    ran = unittest.main(exit=False, verbosity=0).result
    failed = len(ran.failures) + len(ran.errors)
    print(f"gate: {ran.testsRun - failed} passed, {failed} failed")
    sys.exit(failed > 0)
