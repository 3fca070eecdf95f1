#!/usr/bin/env python3
"""What ./run calls proved: it proves and compiles a small tree by a kit that is made up here.

    .ci/test_run.py

Ends with a line as `run: 9 passed, 0 failed`, and with status 1 where one fails.
"""
from __future__ import annotations

import os
import pathlib
import shutil
import signal
import subprocess
import sys
import tempfile
import time
import unittest

TOP = pathlib.Path(__file__).resolve().parent.parent
# A kit that proves all, or fails, or takes its time if a file says so; and compiles a program that says its name, by a
# clang that must be asked to optimise and not to check accesses.
RT = """#!/bin/sh
here=$(dirname -- "$0")
tell() { printf '#!/bin/sh\\necho "trdpd 9.9.9, %s: $*"\\n' "$1"; }
case $1 in
    lib | try) if [ -e "{control}/slow" ]; then touch "{control}/began"; sleep 3; fi ;;
esac
case $1 in
    lib)
        test ! -e "{control}/fails" || exit
        case $PWD in */trdp_node) mkdir -p out; echo "a library" > out/libtrdp_node.a ;; esac ;;
    run) mkdir -p out; tell proved > out/trdpd; chmod +x out/trdpd ;;
    try)
        cd "$(mktemp -d)" || exit
        "$here/../toolchain/bin/clang" -O0 -fsanitize=address -o module.o || exit
        "$here/../toolchain/bin/ld.lld" -o program ;;
esac
"""
CLANG = """#!/bin/sh
case " $* " in *" -fsanitize="*) exit 1 ;; *" -O2 "*) ;; *) exit 1 ;; esac
"""
LINKER = """#!/bin/sh
printf '#!/bin/sh\\necho "trdpd 9.9.9, compiled: $*"\\n' > "$2"; chmod +x "$2"
"""
TREE = {
    "HANDLES": "Handles allowed: Net.\n", "crates.txt": "low:\ntrdpd: low\ntrdp_node staticlib: low\nother:\n",
    "crates/low/src/lib.rt": "fn low() {}\n", "crates/low/specs/Lib.antt": "-- a definition\n",
    "crates/low/proofs/low/Answers.antt": "-- a proof\n", "crates/other/src/lib.rt": "fn other() {}\n",
    "crates/trdpd/src/main.rt": '"proved with logic {LOGIC}"\n', "crates/trdp_node/src/lib.rt": "fn node() {}\n",
}
NONE = ("run: there is no program of these sources: ./run build compiles one without proof in about two minutes, "
        "./run prove proves one in about 30\n")
UNPROVED = "run: nothing of this program is proved: ./run prove proves it\n"
PROGRAM = "crates/trdpd/out/trdpd"
# What is changed, in which file, and which text there is replaced by which one.
CHANGES = [
    ("a definition", "crates/low/specs/Lib.antt", "\n", "\n\n"), ("a body", "crates/low/src/lib.rt", "\n", "\n\n"),
    ("a proof", "crates/low/proofs/low/Answers.antt", "\n", "\n\n"),
    ("what the sources may use", "HANDLES", "Net", "Wait"), ("what the crates stand on", "crates.txt", "\n", "\n\n"),
    ("the program", PROGRAM, "\n", "\n\n"),
    ("the record's digest", f"{PROGRAM}.record", "digest ", "digest 0"),
    ("the record's logic", f"{PROGRAM}.record", "logic 0", "logic 1"),
    ("the record's kind", f"{PROGRAM}.record", "kind proved", "kind unproved"),
]


class Tree(unittest.TestCase):
    """A tree, and a kit."""

    def setUp(self) -> None:
        scratch = tempfile.TemporaryDirectory()
        self.addCleanup(scratch.cleanup)
        self.scratch = pathlib.Path(scratch.name)
        self.top = self.scratch / "tree"
        self.kit = self.scratch / "kit"
        for path, text in TREE.items():
            self.write(self.top / path, text)
        (self.top / "package").mkdir()
        for name in ("run", *(f"package/{it}.py" for it in ("copies", "prove", "record", "unproved"))):
            shutil.copy(TOP / name, self.top / name)
        self.write(self.kit / "KIT-ID", "made-up-kit logic 0123456789abcdef\n")
        self.write(self.kit / "bin/rtlib.py", "")
        for path, text in (("bin/rt", RT.replace("{control}", str(self.scratch))), ("toolchain/bin/clang", CLANG),
                           ("toolchain/bin/ld.lld", LINKER)):
            self.write(self.kit / path, text)
            (self.kit / path).chmod(0o755)

    @staticmethod
    def write(path: pathlib.Path, text: str) -> None:
        """Writes a file, and its folder."""
        path.parent.mkdir(parents=True, exist_ok=True)
        path.write_text(text)

    def begin(self, *words: str, kit: bool = True, top: pathlib.Path | None = None) -> subprocess.Popen[str]:
        """Begins ./run with these words, in this tree or another one, with the kit or without one."""
        environment = {**os.environ, "RT": str(self.kit / "bin/rt" if kit else self.scratch / "none")}
        return subprocess.Popen([(top or self.top) / "run", *words], env=environment, text=True,
                                stdout=subprocess.PIPE, stderr=subprocess.PIPE, start_new_session=True)

    def run_words(self, *words: str, kit: bool = True, top: pathlib.Path | None = None) -> tuple[int, str, str]:
        """The status, the output and the error stream of ./run with these words."""
        with self.begin(*words, kit=kit, top=top) as ran:
            output, errors = ran.communicate(timeout=60)
            return ran.returncode, output, errors

    def record(self, *words: str, path: str = os.environ["PATH"]) -> tuple[int, str]:
        """The status and the output of package/record.py with these words."""
        environment = {**os.environ, "RT": str(self.kit / "bin/rt"), "PATH": path}
        line = [sys.executable, str(self.top / "package/record.py"), *words]
        ran = subprocess.run(line, env=environment, capture_output=True, text=True)
        self.assertEqual(ran.stderr, "")
        return ran.returncode, ran.stdout

    def prove(self) -> None:
        """Proves the tree."""
        status, _, errors = self.run_words("prove")
        self.assertEqual((status, errors.splitlines()[-1]), (0, f"run: proved and built: {self.program()}"), errors)

    def program(self, place: str = PROGRAM) -> str:
        """The program's path."""
        return str(self.top / place)

    def is_proved(self, kit: bool = True, top: pathlib.Path | None = None) -> None:
        """The proved program runs."""
        self.assertEqual(self.run_words("check", "x", kit=kit, top=top), (0, "trdpd 9.9.9, proved: check x\n", ""))

    def awaits_the_kit(self) -> None:
        """Waits until the kit has begun to prove or to compile."""
        began, end = self.scratch / "began", time.monotonic() + 20
        while not began.exists():
            self.assertLess(time.monotonic(), end)
            time.sleep(0.05)

    def is_none(self, why: str) -> None:
        """No program runs."""
        self.assertEqual(self.run_words("daemon", "x"), (4, "", NONE), why)
        self.assertEqual(self.run_words("package")[0], 4, why)


class Proved(Tree):
    """What is called proved."""

    def test_a_touched_tree_and_a_second_checkout_are_proved(self) -> None:
        self.is_none("before the proof")
        self.prove()
        self.is_proved()
        self.assertEqual(self.run_words("prove")[2], f"run: trdpd is proved and built: {self.program()}\n")
        for path in TREE:
            os.utime(self.top / path, (time.time() + 60, time.time() + 60))
        # Editors leave such files while a source is open.
        for name in (".lib.rt.swp", "lib.rt~", "#lib.rt#"):
            self.write(self.top / "crates/low/src" / name, "")
        (self.top / "crates/low/src/.#lib.rt").symlink_to("somebody@somewhere")
        self.is_proved()
        self.is_proved(kit=False)
        second = self.scratch / "second"
        shutil.copytree(self.top, second, copy_function=shutil.copy, ignore_dangling_symlinks=True)
        self.is_proved(top=second)
        self.write(self.top / "crates/other/src/lib.rt", "fn another() {}\n")
        self.is_proved()

    def test_a_changed_tree_is_not_proved(self) -> None:
        self.prove()
        for what, place, old, new in CHANGES:
            path = self.top / place
            text = path.read_text()
            self.write(path, text.replace(old, new, 1))
            self.is_none(what)
            self.write(path, text)
            self.is_proved()
        more = self.top / "crates/low/specs/More.antt"
        self.write(more, "")
        self.is_none("one more definition")
        more.unlink()
        self.write(self.kit / "KIT-ID", "made-up-kit logic fedcba9876543210\n")
        self.is_none("another logic")

    def test_the_record_has_the_commit_and_whether_files_differ_from_it(self) -> None:
        def git(*words: str) -> str:
            line = ["git", "-c", "user.name=a", "-c", "user.email=b", *words]
            return subprocess.run(line, cwd=self.top, check=True, capture_output=True, text=True).stdout.strip()

        self.prove()
        self.write(self.top / ".gitignore", "out/\n__pycache__/\n")
        git("init", "-q")
        git("add", "-A")
        git("commit", "-q", "-m", "a tree")
        commit = git("rev-parse", "HEAD")
        for place, said in (("note", commit), ("crates/low/specs/More.antt", f"{commit} and changes"),
                            ("crates/low/src/lib.rt", f"{commit} and changes")):
            self.write(self.top / place, "-- other text\n")
            digest = self.record("digest")[1].strip()
            self.assertEqual(self.record("write", "proved", digest), (0, ""))
            self.assertIn(f"\ncommit {said}\n", pathlib.Path(f"{self.program()}.record").read_text(), place)
            git("clean", "-q", "-d", "-f")
        # Where git isn't installed a proof counts all the same.
        self.assertEqual(self.record("write", "proved", digest, path=str(self.scratch)), (0, ""))
        self.assertIn("\ncommit unknown\n", pathlib.Path(f"{self.program()}.record").read_text())

    def test_the_version_says_what_it_was_made_of(self) -> None:
        self.prove()
        status, output, errors = self.run_words("--version")
        self.assertEqual((status, errors), (0, ""))
        self.assertRegex(output, r"^trdpd 9\.9\.9, proved: --version\nkind proved\ndigest [0-9a-f]{64}\n"
                                 r"program [0-9a-f]{64}\nkit made-up-kit logic 0123456789abcdef\ncommit unknown\n$")

    def test_an_interrupted_proof_leaves_nothing(self) -> None:
        self.prove()
        self.write(self.top / "crates/low/src/lib.rt", "fn other() {}\n")
        self.write(self.scratch / "slow", "")
        with self.begin("prove") as proof:
            self.awaits_the_kit()
            os.kill(proof.pid, signal.SIGINT)
            self.assertEqual(proof.wait(20), 130)
        self.is_none("interrupted")
        self.assertFalse(pathlib.Path(self.program()).exists())

    def test_a_source_that_changes_meanwhile_is_not_proved(self) -> None:
        self.write(self.scratch / "slow", "")
        with self.begin("prove") as proof:
            self.awaits_the_kit()
            self.write(self.top / "crates/low/specs/Lib.antt", "-- another definition\n")
            errors = proof.communicate(timeout=60)[1]
        self.assertEqual((proof.returncode, errors.splitlines()[-1]),
                         (4, "run: a source has changed meanwhile: begin again"))
        self.is_none("changed meanwhile")

    def test_a_proof_that_fails_leaves_nothing(self) -> None:
        self.write(self.scratch / "fails", "")
        self.assertEqual(self.run_words("prove")[0], 4)
        self.is_none("failed")


class Library(Tree):
    """The node's library for C, which has a record of its own."""

    def test_it_is_proved_beside_the_program(self) -> None:
        place = self.program("crates/trdp_node/out/libtrdp_node.a")
        self.prove()
        self.assertEqual(self.record("state", "trdp_node"), (0, "none\n"))
        status, _, errors = self.run_words("prove", "library")
        self.assertEqual((status, errors.splitlines()[-1]), (0, f"run: proved and built: {place}"), errors)
        self.assertEqual(self.record("state", "trdp_node"), (0, f"proved {place}\n"))
        self.assertEqual(self.run_words("build", "library")[2], f"run: trdp_node is built: proved {place}\n")
        self.write(self.top / "crates/trdp_node/src/lib.rt", "fn other() {}\n")
        self.assertEqual(self.record("state", "trdp_node"), (0, "none\n"))
        self.is_proved()

    def test_a_proof_that_fails_leaves_nothing(self) -> None:
        self.assertEqual(self.run_words("prove", "library")[0], 0)
        self.write(self.scratch / "fails", "")
        self.write(self.top / "crates/low/src/lib.rt", "fn other() {}\n")
        self.assertEqual(self.run_words("prove", "library")[0], 4)
        self.assertEqual(self.record("state", "trdp_node"), (0, "none\n"))


class Built(Tree):
    """What is compiled without proof."""

    def test_it_runs_and_says_that_it_is_not_proved(self) -> None:
        self.assertEqual(self.run_words("build")[0], 0)
        self.assertEqual(self.run_words("run", "x"), (0, "trdpd 9.9.9, compiled: run x\n", UNPROVED))
        self.assertIn("\nkind unproved\n", self.run_words("--version")[1])
        self.assertEqual(self.run_words("package")[0], 4)
        place = self.program("out/unproved/trdpd")
        self.assertEqual(self.run_words("build")[2], f"run: trdpd is built: unproved {place}\n")

    def test_a_stale_one_never_runs(self) -> None:
        self.assertEqual(self.run_words("build")[0], 0)
        self.write(self.top / "crates/low/src/lib.rt", "fn other() {}\n")
        self.is_none("stale")

    def test_an_interrupted_one_leaves_nothing(self) -> None:
        self.write(self.scratch / "slow", "")
        with self.begin("build") as build:
            self.awaits_the_kit()
            os.killpg(build.pid, signal.SIGINT)
            errors = build.communicate(timeout=60)[1]
        self.assertEqual(errors.splitlines()[1:], ["run: interrupted"])
        self.is_none("interrupted")

    def test_a_proved_one_comes_first(self) -> None:
        self.assertEqual(self.run_words("build")[0], 0)
        self.prove()
        self.is_proved()


if __name__ == "__main__":
    # A shell that starts this in the background has it ignore an interrupt, and what it starts would too.
    signal.signal(signal.SIGINT, signal.default_int_handler)
    ran = unittest.main(exit=False, verbosity=0).result
    failed = len(ran.failures) + len(ran.errors)
    print(f"run: {ran.testsRun - failed} passed, {failed} failed")
    sys.exit(failed > 0)
