#!/usr/bin/env python3
"""How ./run prove proves the crates of a small tree by a stand-in for the kit's `rt`: in which order, how many at a
time, and what it leaves behind.

    .ci/test_prove.py

Ends with a line as `prove: 9 passed, 0 failed`, and with status 1 if one fails.
"""
from __future__ import annotations

import contextlib
import dataclasses
import os
import pathlib
import re
import shutil
import signal
import subprocess
import sys
import tempfile
import time
import unittest

TOP = pathlib.Path(__file__).resolve().parent.parent
# The crates, and the crates below each. The program does not stand on `other`.
BELOW = {"base": "", "lone": "", "left": "base", "right": "base", "wide": "base left right",
         "trdpd": "base lone left right wide", "other": "base"}
# It makes a library of a crate's source, if the libraries are there that the last line of the source names. Files in
# the folder for notes say what has to happen before it ends (NAME.awaits), that it fails (NAME.fails), and that it goes
# on when it is told to end (stays). `events` there has what happened.
RT = """#!/bin/sh
notes={notes}
name=$(basename "$PWD")
case $PWD in {top}/*) place=tree ;; *) place=copy ;; esac
jobs=$3
tell() { echo "$1:$name $place $jobs $(nice) $(date +%s.%N)" >> "$notes/events"; }
if cmp -s src/lib.rt out/lib; then tell keeps; exit; fi
tell begins
if [ "$1" = run ] && [ -n "$(ls -d "$TMPDIR"/*/* 2> /dev/null)" ]; then echo "a copy is left"; exit 1; fi
seq -f 'so far: %g of 40 functions' 30
for it in $(tail -n 1 src/lib.rt); do
    if ! cmp -s "../$it/src/lib.rt" "../$it/out/lib"; then echo "no library $it"; exit 1; fi
    if [ "$place" = copy ] && [ -e "../$it/out/incremental" ]; then echo "too much of $it"; exit 1; fi
done
mkdir -p out/incremental
echo "$name" > out/incremental/work
if [ -e "$notes/stays" ]; then trap '' TERM; fi
tell works
sleep 60 &
for it in $(cat "$notes/$name.awaits" 2> /dev/null); do
    i=0
    until grep -q "^$it " "$notes/events" || [ "$i" -eq 1000 ]; do i=$((i + 1)); sleep 0.02; done
done
kill -9 "$!"
if [ -e "$notes/$name.fails" ]; then echo "the reason"; tell fails; exit 1; fi
cp src/lib.rt out/lib
tell ends
if [ "$1" = run ]; then printf '#!/bin/sh\\necho "trdpd 9.9.9: $*"\\n' > out/trdpd; chmod +x out/trdpd; exit 2; fi
"""
LITTLE = "MemAvailable: 2900000 kB\n"
# What the scripts take from the machine, and what is put there instead, so that the tests do not depend on it.
MACHINE: dict[str, list[tuple[str, str]]] = {
    "run": [], "package/record.py": [],
    "package/prove.py": [("len(os.sched_getaffinity(0))", "4"), ('"/proc/meminfo"', '"{notes}/meminfo"'),
                         (" LOOKS, LEAST = 30.0, 0.1, 3.0", " LOOKS, LEAST = 30.0, 0.02, 3.0")],
    "package/copies.py": [("DISK = 2_000_000_000", "DISK = 1_000_000")],
}


@dataclasses.dataclass
class Span:
    """When, where and by how many processes a crate was proved."""

    place: str
    jobs: int
    priority: int
    begin: float
    end: float = 0.0


class Tree(unittest.TestCase):
    """A tree, and a kit."""

    def setUp(self) -> None:
        scratch = pathlib.Path(self.enterContext(tempfile.TemporaryDirectory()))
        # In the background these may be ignored, and so would what a test begins.
        signal.signal(signal.SIGINT, signal.default_int_handler)
        signal.signal(signal.SIGHUP, signal.SIG_DFL)
        self.top, self.notes, self.copies = (scratch / it for it in ("tree", "notes", "copies"))
        self.copies.mkdir()
        self.write("HANDLES", "Handles allowed: Net.\n")
        self.write("crates.txt", "".join(f"{name}: {below} std\n" for name, below in BELOW.items()))
        for name, below in BELOW.items():
            self.write(f"crates/{name}/src/lib.rt", f"fn {name}() {{}}\n{below}\n")
        (self.top / "package").mkdir()
        for file, changes in MACHINE.items():
            shutil.copy(TOP / file, self.top / file)
            self.change(file, *changes)
        self.rt = scratch / "kit/bin/rt"
        self.write(f"{self.rt}", RT)
        self.write("../kit/KIT-ID", "made-up-kit logic 0123456789abcdef\n")
        self.rt.chmod(0o755)
        self.note("meminfo", "MemTotal: 64000000 kB\nMemAvailable:   48000000 kB\n")
        self.note("events")

    def write(self, path: str, text: str) -> None:
        """Writes a file of the tree, and its folder."""
        (self.top / path).parent.mkdir(parents=True, exist_ok=True)
        (self.top / path).write_text(text.replace("{notes}", str(self.notes)).replace("{top}", str(self.top)))

    def note(self, name: str, text: str = "") -> None:
        """Writes a file for the kit."""
        self.write(f"../notes/{name}", text)

    def await_events(self, **events: str) -> None:
        """Says what has to happen before a crate ends."""
        for name, it in events.items():
            self.note(f"{name}.awaits", it)

    def change(self, file: str, *changes: tuple[str, str]) -> None:
        """Replaces text of the tree's scripts that stands there once."""
        text = (self.top / file).read_text()
        for old, new in changes:
            self.assertEqual(text.count(old), 1, old)
            text = text.replace(old, new)
        self.write(file, text)

    def begin(self, before: str = "") -> subprocess.Popen[str]:
        """Begins ./run prove, behind a command of the shell."""
        environment = {**os.environ, "RT": str(self.rt), "TMPDIR": str(self.copies)}
        proof = subprocess.Popen(["sh", "-c", f"{before}\nexec ./run prove"], cwd=self.top, env=environment, text=True,
                                 stderr=subprocess.PIPE, start_new_session=True)
        self.addCleanup(proof.communicate)
        self.addCleanup(proof.terminate)
        return proof

    def said(self, proof: subprocess.Popen[str], status: int) -> list[str]:
        """What ./run prove has printed when it ends, with this status."""
        errors = proof.communicate(timeout=60)[1]
        self.assertEqual(proof.returncode, status, errors)
        return errors.splitlines()

    def prove(self, status: int = 0, before: str = "") -> list[str]:
        """What ./run prove prints. Nothing is left behind."""
        lines = self.said(self.begin(before), status)
        self.leaves_nothing()
        return lines

    def leaves_nothing(self) -> None:
        """No process that ./run began is left, no copy, and no part of one."""
        end = time.monotonic() + 10
        while left := self.processes():
            self.assertLess(time.monotonic(), end, left)
        self.assertEqual([*self.copies.iterdir()], [])
        self.assertEqual([it.name for it in (self.top / "out").iterdir()], ["proof"])

    def processes(self) -> list[str]:
        """The processes of this test's kit."""
        found, own = [], f"RT={self.rt}\0".encode()
        for path in pathlib.Path("/proc").glob("[0-9]*/environ"):
            with contextlib.suppress(OSError):
                if own in path.read_bytes():
                    found.append(path.parent.name)
        return found

    def all_events(self) -> list[list[str]]:
        """What happened: what, to which crate, in which tree, by how many processes of which priority, and when."""
        return [it.replace(":", " ", 1).split() for it in (self.notes / "events").read_text().splitlines()]

    def events(self, kind: str) -> list[str]:
        """The crates to which this happened, in order."""
        return [it[1] for it in self.all_events() if it[0] == kind]

    def go_on(self) -> None:
        """Lets crates end that wait for it."""
        with (self.notes / "events").open("a") as file:
            file.write("go:on - - - -\n")

    def spans(self) -> dict[str, Span]:
        """When each crate was proved."""
        found: dict[str, Span] = {}
        for kind, name, place, jobs, priority, moment in self.all_events():
            if kind == "begins":
                found[name] = Span(place, int(jobs), int(priority) - os.nice(0), float(moment))
            elif kind == "ends":
                found[name].end = float(moment)
        return found

    def most(self, place: str = "") -> int:
        """How many crates were proved at a time, in such a tree."""
        spans = [it for it in self.spans().values() if place in it.place]
        return max(sum(other.begin <= it.begin < other.end for other in spans) for it in spans)

    def awaits(self, *events: str) -> None:
        """Waits until this has happened."""
        end = time.monotonic() + 60
        while not {*events} <= {f"{it[0]}:{it[1]}" for it in self.all_events()}:
            self.assertLess(time.monotonic(), end, events)
            time.sleep(0.02)

    def reads(self, proof: subprocess.Popen[str], pattern: str) -> None:
        """Reads what ./run prints, up to such a line."""
        self.assertTrue(any(re.fullmatch(pattern, line.rstrip()) for line in proof.stderr or ()), pattern)

    def work(self, name: str) -> bool:
        """Whether this tree has what was made of a crate so far."""
        return (self.top / f"crates/{name}/out/incremental/work").exists()


class Order(Tree):
    """Which crates are proved when, and where."""

    def test_crates_are_proved_in_order_and_several_at_a_time(self) -> None:
        self.await_events(base="begins:lone", lone="begins:left begins:right", left="begins:right", right="begins:left")
        self.assertEqual(self.prove()[-1], f"run: proved and built: {self.top}/crates/trdpd/out/trdpd")
        spans = self.spans()
        self.assertEqual({*spans}, {*BELOW} - {"other"})
        for name, it in spans.items():
            for below in BELOW[name].split():
                self.assertLess(spans[below].end, it.begin, name)
                self.assertTrue((self.top / f"crates/{below}/out/lib").exists() and self.work(below), below)
        self.assertEqual((self.most(), self.most("tree")), (3, 1))
        shown = {name: (it.place, it.jobs, it.priority) for name, it in spans.items()}
        # There is no priority below 19, where this test may run itself.
        first, second = ("tree", 4, 0), ("copy", 2, min(10, 19 - os.nice(0)))
        self.assertEqual((shown["base"], shown["lone"], shown["trdpd"]), (first, second, first))
        self.assertEqual(sorted([shown["left"], shown["right"]]), [second, first])

    def test_copies_may_be_on_another_disk(self) -> None:
        memory = pathlib.Path("/dev/shm")
        if not os.access(memory, os.W_OK) or memory.stat().st_dev == self.top.stat().st_dev:
            self.skipTest("there is no other disk")
        self.copies = pathlib.Path(tempfile.mkdtemp(dir=memory))
        self.addCleanup(shutil.rmtree, self.copies)
        self.await_events(left="begins:right", right="begins:left")
        self.prove()
        self.assertEqual({self.spans()[it].place for it in ("left", "right")}, {"tree", "copy"})

    def test_libraries_take_no_room_on_the_same_disk(self) -> None:
        self.write("crates/base/out/large", "-" * 2_000_000)
        self.await_events(left="begins:right", right="begins:left")
        self.prove()
        self.assertEqual({self.spans()[it].place for it in ("left", "right")}, {"tree", "copy"})

    def test_what_is_kept_is_not_made_again(self) -> None:
        self.change("package/prove.py", ("LEAST = 30.0, 0.02, 3.0", "LEAST = 0.1, 0.02, 0.0"))
        self.await_events(base="go:on")
        proof = self.begin()
        self.reads(proof, r"run: 0:\d\d  [01] of 6 crates, now base \(30 of 40 functions\).*, about 1 min more")
        self.go_on()
        self.said(proof, 0)
        self.note("events")
        self.write("crates/trdpd/src/lib.rt", f"fn other() {{}}\n{BELOW['trdpd']}\n")
        self.await_events(trdpd="go:on")
        proof = self.begin()
        self.reads(proof, r"run: 0:\d\d  5 of 6 crates, now trdpd \(30 of 40 functions\), about 1 min more")
        self.go_on()
        self.said(proof, 0)
        self.assertEqual({*self.events("keeps")}, {*BELOW} - {"other", "trdpd"})
        self.assertEqual(self.events("begins"), ["trdpd"])

    def test_little_memory_has_one_crate_at_a_time_the_longest_chain_first(self) -> None:
        self.note("meminfo", LITTLE)
        self.prove()
        self.assertEqual({(it.place, it.jobs) for it in self.spans().values()}, {("tree", 1)})
        self.assertEqual(self.events("begins")[0], "base")
        self.assertEqual({*self.events("begins")[1:3]}, {"left", "right"})

    def test_the_size_of_sources_says_which_chain_is_the_longest(self) -> None:
        self.note("meminfo", LITTLE)
        self.write("crates/lone/specs/Large.antt", "-- a line\n" * 1000)
        self.prove()
        self.assertEqual(self.events("begins")[0], "lone")

    def test_the_times_of_an_earlier_run_say_which_chain_is_the_longest(self) -> None:
        self.note("meminfo", LITTLE)
        self.write("out/proof/seconds", "".join(f"{name} {1000 if name == 'lone' else 1}\n" for name in BELOW))
        self.prove()
        self.assertEqual(self.events("begins")[0], "lone")

    def test_memory_for_two_has_two_at_a_time(self) -> None:
        self.note("meminfo", "MemAvailable: 6000000 kB\n")
        self.await_events(base="begins:lone", lone="begins:left")
        self.prove()
        self.assertEqual((self.most(), self.most("copy"), {it.jobs for it in self.spans().values()}), (2, 1, {1, 2}))

    def test_memory_that_gets_scarce_lets_no_other_crate_begin(self) -> None:
        self.await_events(base="go:on")
        proof = self.begin()
        self.awaits("begins:base")
        self.note("meminfo", LITTLE)
        self.go_on()
        self.said(proof, 0)
        self.assertEqual({self.spans()[it].place for it in ("left", "right")}, {"tree"})


class Room(Tree):
    """Copies that find no room."""

    def is_alone(self, why: str, before: str = "") -> None:
        """All crates are proved in this tree, one at a time, and a line says why."""
        said = [it for it in self.prove(before=before) if "beside another crate" in it]
        self.assertRegex(said[0], f"^run: lone is not proved beside another crate: {why}$")
        self.assertEqual(len(said), len({*said}))
        self.assertEqual({it.place for it in self.spans().values()}, {"tree"})

    def test_copies_that_are_too_large(self) -> None:
        self.change("package/copies.py", ("DISK = 1_000_000", "DISK = 1_000"))
        self.write("crates/other/src/more.rt", "// \n" * 300)
        self.is_alone("all copies of the tree take at most 1e-06 GB of the disk, and leave as much free")

    def test_a_full_disk(self) -> None:
        # No file may be longer than 50 kB, so that a copy of this one fails in its midst, as on a full disk.
        self.write("crates/other/src/more.rt", "// \n" * 25_000)
        self.is_alone(r".*File too large.*", before="ulimit -f 100")


class Ends(Tree):
    """What is left when a proof ends before all is proved."""

    def setUp(self) -> None:
        super().setUp()
        self.await_events(left="go:on", right="go:on")

    def goes_on(self) -> None:
        """The next proof makes only the rest."""
        self.assertFalse((self.top / "crates/trdpd/out/trdpd").exists())
        self.assertTrue(self.work("left") and self.work("right"))
        self.await_events(left="", right="")
        self.note("events")
        self.prove()
        self.assertEqual({*self.events("keeps")}, {"base", "lone"})
        self.assertEqual({*self.events("begins")}, {"left", "right", "wide", "trdpd"})

    def is_interrupted(self, number: int) -> None:
        """A signal ends a proof, whose processes end too."""
        proof = self.begin()
        self.awaits("works:left", "works:right")
        os.kill(proof.pid, number)
        self.assertEqual(self.said(proof, 130)[-1], "run: interrupted; what is proved is kept")
        self.leaves_nothing()

    def test_an_interrupt_keeps_what_is_proved(self) -> None:
        self.await_events(base="ends:lone")
        self.is_interrupted(signal.SIGINT)
        self.goes_on()

    def test_it_ends_when_it_is_told_to_and_when_the_terminal_is_gone(self) -> None:
        self.is_interrupted(signal.SIGTERM)
        self.note("events")
        self.is_interrupted(signal.SIGHUP)

    def test_processes_that_stay_are_killed(self) -> None:
        self.change("package/prove.py", ("wait(10)", "wait(0.2)"))
        self.note("stays")
        self.is_interrupted(signal.SIGINT)

    def test_a_failure_names_the_crate_and_ends_the_others(self) -> None:
        self.await_events(right="ends:lone works:left")
        self.note("right.fails")
        lines = self.prove(4)
        self.assertEqual(lines[1:-1], [*(f"so far: {it} of 40 functions" for it in range(12, 31)), "the reason"])
        self.assertRegex(lines[-1], "^run: trdpd wasn't built: right failed; the whole text is in .*/proof/right.log$")
        (self.notes / "right.fails").unlink()
        self.goes_on()

    def test_a_program_that_is_not_there_is_a_failure(self) -> None:
        self.await_events(left="", right="")
        self.note("trdpd.fails")
        self.assertRegex(self.prove(4)[-1], "^run: trdpd wasn't built: trdpd failed; ")

    def test_a_hangup_that_is_ignored_ends_nothing(self) -> None:
        self.await_events(right="")
        proof = self.begin("trap '' HUP")
        self.awaits("begins:left")
        os.kill(proof.pid, signal.SIGHUP)
        time.sleep(0.2)
        self.go_on()
        self.said(proof, 0)


class Lock(Tree):
    """Two proofs in one tree."""

    def setUp(self) -> None:
        super().setUp()
        self.note("meminfo", LITTLE)
        self.await_events(base="go:on")
        self.first = self.begin()
        self.awaits("begins:base")

    def second_one(self) -> None:
        """Begins a second proof, which waits, and then lets the first one end."""
        second = self.begin()
        self.reads(second, r"run: another \./run is building; waiting for it \.\.")
        self.go_on()
        self.said(second, 0)

    def test_the_second_one_waits_for_the_first_one(self) -> None:
        self.second_one()
        self.said(self.first, 0)
        self.assertEqual((len(self.events("begins")), self.events("keeps")), (6, []))

    def test_the_second_one_waits_for_what_a_killed_one_left_running(self) -> None:
        self.first.kill()
        self.second_one()
        self.assertEqual(self.events("begins").count("base"), 1)


if __name__ == "__main__":
    ran = unittest.main(exit=False, verbosity=0).result
    failed = len(ran.failures) + len(ran.errors)
    print(f"prove: {ran.testsRun - failed} passed, {failed} failed")
    sys.exit(failed > 0)
