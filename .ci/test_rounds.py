#!/usr/bin/env python3
"""Which rounds of bench/daemon.py count, on machines that are made up here.

    .ci/test_rounds.py

Ends with a line such as `rounds: 8 passed, 0 failed`, and with status 1 if one fails.
"""
from __future__ import annotations

import os
import pathlib
import sys
import tempfile
import unittest
from collections.abc import Iterable, Mapping
from unittest import mock

TOP = pathlib.Path(__file__).resolve().parent.parent
sys.path.insert(0, str(TOP / "bench"))
from daemons import rounds  # noqa: E402
from daemons.rounds import Look, Process, counts, disturbance, look_in, measured_rounds  # noqa: E402

SCRIPT, NODE, FLOOD, SHELL, OTHER = 40, 41, 42, 30, 50
QUIET = {1: Process(0, 100), SHELL: Process(1, 5), SCRIPT: Process(SHELL, 20), OTHER: Process(1, 700, 300)}
STAT = "cpu  10 20 30 40 50 60 70 {stolen} 0 0\ncpu0 1 2 3 4 5 6 7 8 0 0\nintr 9\n"
# The first 18 places of /proc/N/stat. The fourth has the parent, and places 14 to 17 have the times.
PROCESS = "{number} ({name}) S {parent} 0 0 0 0 0 0 0 0 0 {user} {system} {ended_user} {ended_system} 20\n"


def machine(seconds: float, stolen: int, processes: Mapping[int, Process]) -> Look:
    """What the system says of a machine, read from files as it writes them."""
    with tempfile.TemporaryDirectory() as folder:
        proc = pathlib.Path(folder)
        (proc / "stat").write_text(STAT.format(stolen=stolen))
        (proc / "self").mkdir()
        for number, it in processes.items():
            (proc / str(number)).mkdir()
            (proc / str(number) / "stat").write_text(PROCESS.format(
                number=number, name="a name) S 7 (of it", parent=it.parent, user=it.own // 3,
                system=it.own - it.own // 3, ended_user=it.ended // 3, ended_system=it.ended - it.ended // 3))
        return look_in(proc, seconds)


def is_counted(stolen: int, processes: Mapping[int, Process], before: Mapping[int, Process] | None = None) -> bool:
    """Whether a round of a second counts during which the host took that many ticks away, and after which these
    processes are there."""
    first = machine(7.5, 1_000, QUIET if before is None else before)
    return counts(disturbance(first, machine(8.5, 1_000 + stolen, processes), SCRIPT))


@mock.patch.object(rounds, "TICKS", 100)
class Rule(unittest.TestCase):
    """The rule of one round."""

    def test_what_the_system_says_is_read(self) -> None:
        self.assertEqual(machine(7.5, 1_000, QUIET), Look(7.5, 1_000, QUIET))

    def test_the_host_may_take_a_hundredth_of_a_processor(self) -> None:
        self.assertEqual([is_counted(it, QUIET) for it in (0, 1, 2)], [True, True, False])

    def test_other_processes_may_use_a_tenth_of_a_processor(self) -> None:
        used = [is_counted(0, {**QUIET, 1: Process(0, 104), OTHER: Process(1, 700 + it, 300)}) for it in (0, 6, 7)]
        self.assertEqual(used, [True, True, False])
        self.assertFalse(is_counted(0, {**QUIET, 60: Process(OTHER, 11)}))

    def test_what_is_measured_may_use_all(self) -> None:
        after = {**QUIET, SCRIPT: Process(SHELL, 90, 200), NODE: Process(SCRIPT, 80), FLOOD: Process(NODE, 90)}
        self.assertTrue(is_counted(0, after))
        before = {**QUIET, NODE: Process(SCRIPT, 300), FLOOD: Process(NODE, 400)}
        self.assertTrue(is_counted(0, {**QUIET, SCRIPT: Process(SHELL, 20, 900)}, before))

    def test_of_a_process_that_has_ended_what_it_used_before_is_nothing(self) -> None:
        before = {**QUIET, 60: Process(OTHER, 5_000, 40)}
        ended = [is_counted(0, {**QUIET, OTHER: Process(1, 700, 300 + 5_040 + it)}, before) for it in (10, 11)]
        self.assertEqual(ended, [True, False])

    def test_a_process_that_no_one_waited_for_hides_no_other(self) -> None:
        before = {**QUIET, 60: Process(1, 5_000)}
        self.assertTrue(is_counted(0, QUIET, before))
        self.assertFalse(is_counted(0, {**QUIET, OTHER: Process(1, 711, 300)}, before))


@mock.patch.object(rounds, "TICKS", 100)
class Many(unittest.TestCase):
    """How many rounds are made."""

    def made(self, asked: int, stolen: Iterable[int]) -> rounds.Rounds[int]:
        """The rounds of a second each that are made while the host takes these ticks away in one after the other."""
        looks, total = [], 0
        for number, ticks in enumerate(stolen):
            looks += [Look(number, total, {os.getpid(): Process(1)})]
            total += ticks
            looks += [Look(number + 1, total, {os.getpid(): Process(1)})]
        return measured_rounds(asked, lambda number: number, iter(looks).__next__)

    def test_they_go_on_until_as_many_count(self) -> None:
        found = self.made(3, [0, 5, 1, 2, 0, 0])
        self.assertEqual((found.found, found.figures()), ([0, 2, 4], {"asked": 3, "made": 5, "counted": 3}))
        self.assertEqual(found.words(), "3 of 5 rounds count: the host took up to 5.0 %, other processes up to 0 %")

    def test_at_most_three_times_as_many_are_made(self) -> None:
        found = self.made(2, [9, 9, 0, 9, 9, 9, 0])
        self.assertEqual((found.found, found.figures()), ([2], {"asked": 2, "made": 6, "counted": 1}))
        self.assertRegex(found.words(), "^1 of 6 rounds count, 2 were asked for: ")


if __name__ == "__main__":
    ran = unittest.main(exit=False, verbosity=0).result
    failed = len(ran.failures) + len(ran.errors)
    print(f"rounds: {ran.testsRun - failed} passed, {failed} failed")
    sys.exit(failed > 0)
