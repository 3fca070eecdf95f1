#!/usr/bin/env python3
"""What bench/tables writes into the pages, and what it refuses: in a small tree, whose results are made up here.

    .ci/test_tables.py

Ends with a line as `tables: 8 passed, 0 failed`, and with status 1 if one fails.
"""
from __future__ import annotations

import json
import pathlib
import shutil
import subprocess
import sys
import tempfile
import unittest
from typing import Any

TOP = pathlib.Path(__file__).resolve().parent.parent
COPIED = ("bench/tables", "bench/results.py", "package/record.py", "README.md", "bench/README.md")
FIGURES = "#!/bin/sh\necho 'all  16,000  5,000  8,000  43,000  2.7'\n"
NUMBERS = "<!-- bench/tables: numbers -->"
ROUNDS = {"asked": 5, "made": 7, "counted": 5}
TIMES = {"median_us": 41.2, "p99_us": 178.1, "samples": 300}
NODE = {"processor": 0.0771, "late": TIMES, "answer": TIMES}
FLOODED = {"daemon": {"answer": TIMES}, "serve": {"answer": TIMES}}
HEADS = ("process data", "message data")
MADE_UP: dict[str, dict[str, Any]] = {
    "daemon-calls": {"rounds": ROUNDS, "rows": [
        *({"row": row, "slots": slots, "calls": 3.04, "us": 6.44, "sent_per_second": 2000.0, "processor": 0.1}
          for row in ("2000 a second", "20000 a second", "50000 a second", "bursts") for slots in (1, 16)),
        {"row": "sent", "slots": 1, "calls": None, "us": 21.3, "sent_per_second": 5000.0, "processor": 0.1},
        {"row": "flooded", "slots": 1, "calls": 1.2, "us": 1.13, "taken_per_second": 884900.0, "processor": 0.998}]},
    "daemon-idle": {"rounds": ROUNDS, "rows": [
        {"publishers": count, "cycle_ms": cycle, "daemon": NODE, "loop_pieces": {**NODE, "processor": 0.0695},
         "loop_one": NODE} for count, cycle in ((100, 20), (50, 100), (1, 10))]},
    "daemon-rest": {"rounds": ROUNDS, "quiet": {"daemon": NODE, "serve": {**NODE, "processor": 0.999}},
                    "flooded": {it: FLOODED for it in ("other slot", "process data", "message data")},
                    "memory": {"full_objects": 24576, "small": {"rss_kib": 1945, "peak_kib": 1980},
                               "full": {"rss_kib": 19456, "peak_kib": 19660}}},
    "daemon-floods": {"rounds": ROUNDS, "rows": [{"flooded": "process data", "caller": it, "program": TIMES}
                                                 for it in ("sleeps", "looks")]},
    "daemon-trace": {"rounds": ROUNDS, "rows": [{"flooded": "process data", "part": it, "program": TIMES}
                                                for it in ("node", "caller")]},
    "serve": {"rows": [{"row": it, "serve_us": 1.02, "bare_us": 0.86} for it in (
        "telegram in, wanted", "telegram in, wanted, 256 objects", "request in, reply out",
        "telegram out, 256 publishers")]},
    "script_lines": {"rows": [{"script": script, "lines": lines, "seconds": lines / 4.7e6, "peak_kib": 1945}
                              for script in ("puts", "mixed") for lines in (100_000, 1_000_000)]},
    "node_memory": {"rows": [{"slots": slots, "objects": objects, "bytes": size}
                             for slots, objects, size in ((1, 8, 180_000), (16, 24_576, 15_000_000))]},
    "many_objects": {"rows": [{"objects": objects, "slots": slots, "accepted_ns": time}
                              for objects, slots, time in ((1, 1, 400.0), (256, 16, 452.0))]},
    "reset": {"objects": 1536, "others": 23040, "full_us": 345.0, "late": {"alone": TIMES, "beside": TIMES}},
    "control_lines": {"lines": [{"port": it, "unanswered": 64, "us": 7.5} for it in ("control socket", "UDP port")]},
    "instructions": {"rows": [{"line": "put", "instructions": 1558}]},
    "read_heads": {"rows": [{"telegram": it, "bytes": 48, "check": "right", "proved_ns": 22.1, "plain_ns": 19.0,
                             "least_ratio": 1.062, "most_ratio": 1.231} for it in HEADS]},
    "read_heads_instructions": {"rows": [{"telegram": it, "bytes": 48, "proved": 1239, "plain": 1163}
                                         for it in HEADS]},
    "frame_check": {"rows": [{"bytes": size, "body": body, "ns": 15.0} for size in (36, 1472)
                             for body in ("proved", "eight tables", "zlib")]},
    "library": {"rows": {"put, ns": 117, "pd, ns": 231, "line, ns": 294}},
    "view": {"sent": 3_000_000, "counted": 2_999_990, "dropped": 10, "processor": 0.161, "half_mb": 97.1,
             "end_mb": 97.4},
    "proof": {"minutes": 28.8, "processor_minutes": 65.1, "processors": 4},
}
MACHINE = {"processor": "Made Up 9", "processors": 4, "kernel": "9.9", "hypervisor": "kvm"}
SAVE = """import sys
sys.path.insert(0, "bench")
import results
sys.argv = ["bench/serve.py", "10", "a b"]
results.save("serve", {"a": 1.23456, "b": [float("nan"), 2]}, proved=False)
print(results.load("serve"))
"""


class Tree(unittest.TestCase):
    """A tree with both pages."""

    def setUp(self) -> None:
        scratch = tempfile.TemporaryDirectory()
        self.addCleanup(scratch.cleanup)
        self.top = pathlib.Path(scratch.name)
        for name in COPIED:
            (self.top / name).parent.mkdir(parents=True, exist_ok=True)
            shutil.copy(TOP / name, self.top / name)
        shutil.copytree(TOP / "bench/blocks", self.top / "bench/blocks",
                        ignore=shutil.ignore_patterns("__pycache__"))
        (self.top / "docs/tools").mkdir(parents=True)
        (self.top / "docs/tools/figures").write_text(FIGURES)
        (self.top / "docs/tools/figures").chmod(0o755)

    def measure(self, name: str, figures: dict[str, Any] | None = None, proved: bool = True) -> None:
        """Makes up a result."""
        (self.top / "bench/results").mkdir(exist_ok=True)
        found = {"figures": MADE_UP[name] if figures is None else figures, "commit": "made up", "date": "2031-01-02",
                 "machine": MACHINE, "command": f"bench/{name}.py --save", "minutes": 1.5, "proved": proved}
        (self.top / f"bench/results/{name}.json").write_text(json.dumps(found))

    def measure_all(self) -> None:
        """Makes up each result."""
        for name in MADE_UP:
            self.measure(name)

    def tables(self, *words: str) -> tuple[int, list[str]]:
        """The status of bench/tables, and the lines that it prints but the last one."""
        ran = subprocess.run([self.top / "bench/tables", *words], capture_output=True, text=True)
        self.assertEqual(ran.stderr, "")
        return ran.returncode, ran.stdout.splitlines()[:-1]

    def writes(self) -> tuple[str, str]:
        """README and the page of bench/, as bench/tables has written them."""
        self.assertEqual(self.tables(), (0, []))
        self.assertEqual(self.tables("--check"), (0, []))
        return (self.top / "README.md").read_text(), (self.top / "bench/README.md").read_text()

    def numbers(self) -> list[str]:
        """The rows of README's table."""
        lines = (self.top / "README.md").read_text().splitlines()
        begin = lines.index(NUMBERS) + 3
        return lines[begin:lines.index("<!-- end -->", begin)]


class Tables(Tree):
    """What is written."""

    def test_what_was_not_measured_is_not_measured_yet(self) -> None:
        _, page = self.writes()
        rows = self.numbers()
        self.assertIn("| 16,000 / 5,000 / 8,000 / 43,000; 2.7 | `docs/tools/figures` |", rows[0])
        self.assertTrue(all("| not measured yet | `bench/" in it for it in rows[1:]), rows)
        self.assertIn("The first proof took 29 minutes", page)
        self.assertIn("Nothing is measured yet.", page)

    def test_readme_has_seven_numbers_each_with_its_source(self) -> None:
        self.measure_all()
        self.writes()
        rows = self.numbers()
        self.assertEqual(len(rows), 7)
        self.assertEqual([it for it in rows[1:] if not it.endswith(", 2031-01-02 |")], [])
        for text in ("| 880,000, with 100 % of one processor | `bench/daemon.py calls`,", "| 980,000; 1.19 times the",
                     "| 22 ns (1.16 times) and 22 ns (1.16 times) |", "| 1.9 MiB and 19.0 MiB |",
                     "| 7.7 % and 7.0 % |", "| 41 and 178 microseconds |"):
            self.assertTrue(any(text in it for it in rows), text)

    def test_the_page_of_bench_is_whole_and_has_at_most_100_lines(self) -> None:
        self.measure_all()
        _, page = self.writes()
        self.assertNotIn("not measured yet", page)
        self.assertNotIn("The first proof took", page)
        self.assertLessEqual(len(page.splitlines()), 100)
        for text in ("| telegram to `trdpd daemon`, as many as it takes | 1.1 |  | 880,000 | 1.2 | daemon-calls |",
                     "| telegram to `trdpd daemon`, 2,000 a second | 6.4; 6.4 |  | 2,000 | 3.0; 3.0 |",
                     "| 29 | 65 | 2.3 of 4 |",
                     "(a loop without a node) | 7.7 % (7.0 %) | 41, 178 (41, 178) | 41, 178 (41, 178) | daemon-idle |",
                     "| process data 41, 178 µs; 2031-01-02 |",
                     "| 1.5 | valgrind | put 1,558; 2031-01-02 |", "Made Up 9, 4 processors, Linux 9.9 under kvm"):
            self.assertIn(text, page)

    def test_a_table_that_is_out_of_date_is_named(self) -> None:
        self.measure_all()
        self.writes()
        (self.top / "bench/results/serve.json").unlink()
        before = (self.top / "README.md").read_text()
        self.assertEqual(self.tables("--check"), (1, [
            f"{page}: the table `{it}` is out of date: bench/tables writes it" for page, it in (
                ("README.md", "numbers"), ("bench/README.md", "scripts"), ("bench/README.md", "throughput"))]))
        self.assertEqual((self.top / "README.md").read_text(), before)

    def test_rounds_that_do_not_count_are_named(self) -> None:
        self.measure("daemon-rest", {**MADE_UP["daemon-rest"], "rounds": {**ROUNDS, "counted": 2}})
        self.writes()
        self.assertTrue(self.numbers()[6].endswith(", 2031-01-02, only 2 of 5 rounds count |"), self.numbers())

    def test_what_is_saved_can_be_read(self) -> None:
        ran = subprocess.run([sys.executable, "-c", SAVE], cwd=self.top, capture_output=True, text=True)
        self.assertEqual(ran.stderr, "")
        found = json.loads((self.top / "bench/results/serve.json").read_text())
        self.assertEqual(found["figures"], {"a": 1.235, "b": [None, 2]})
        self.assertEqual((found["command"], found["commit"], found["proved"]),
                         ("bench/serve.py 10 'a b'", "unknown", False))
        self.assertTrue(ran.stdout.startswith("saved: bench/results/serve.json\nResult(name='serve', figures={"))


class Refused(Tree):
    """What is not written."""

    def test_readme_takes_no_result_of_an_unproved_program(self) -> None:
        self.measure("serve", proved=False)
        before = (self.top / "README.md").read_text()
        fault = "README.md: serve.json is not of a proved program: README.md takes no such result"
        self.assertEqual(self.tables(), (1, [fault]))
        self.assertEqual(self.tables("--check"), (1, [fault]))
        self.assertEqual((self.top / "README.md").read_text(), before)
        self.assertIn("| 2031-01-02, not proved |", (self.top / "bench/README.md").read_text())

    def test_a_page_without_a_place_and_a_bad_result_are_named(self) -> None:
        readme = self.top / "README.md"
        readme.write_text(readme.read_text().replace(NUMBERS, ""))
        self.measure("serve", {"rows": []})
        status, faults = self.tables()
        self.assertEqual((status, faults[0]), (1, f"README.md: it has 0 lines `{NUMBERS}`, and not one"))
        self.assertRegex(faults[1], "^bench/README.md: serve.json has not what a table needs: KeyError: ")
        (self.top / "bench/results/serve.json").write_text("{")
        self.assertRegex(self.tables()[1][1], "^bench/README.md: serve.json is no result: JSONDecodeError: ")


if __name__ == "__main__":
    ran = unittest.main(exit=False, verbosity=0).result
    failed = len(ran.failures) + len(ran.errors)
    print(f"tables: {ran.testsRun - failed} passed, {failed} failed")
    sys.exit(failed > 0)
