#!/usr/bin/env python3
"""What docs/tools/house counts, and when a number is a fault: in a small tree of two crates and one of tests.

    .ci/test_house.py

Ends with a line as `house: 4 passed, 0 failed`, and with status 1 if one fails.
"""
from __future__ import annotations

import pathlib
import shutil
import subprocess
import sys
import tempfile
import unittest

TOP = pathlib.Path(__file__).resolve().parent.parent
TOOLS = TOP / "docs" / "tools"
LONG = "".join(f"    let x{it} = {it};\n" for it in range(9))
TREE = {
    "crates.txt": "trdp_base:\ntrdp_wire: trdp_base mio\ntrdp_some_tests: trdp_wire\ntrdp_turns: trdp_wire trdp_base\n",
    "crates/trdp_base/src/lib.rt": "//! Base.\n\npub use place::Place;\n",
    "crates/trdp_base/src/place.rt": """//! Places.

const LINE_MAX: usize = 140_000;
const FEW: usize = 3;

pub struct Place(u32);
""",
    "crates/trdp_base/specs/Places.antt": """-- Places.

pub data Place : Type 0 where
  Near : Place

abbrev left : ℕ
left = 3
""",
    "crates/trdp_wire/src/lib.rt": "//! Wires.\n\nmod port;\nmod seat;\n",
    "crates/trdp_wire/src/port.rt": """//! Ports.

use crate::port::ports::Many;
use crate::seat::Seat;

pub(crate) enum Place {
    Left,
}

fn low(a: u8) -> bool {
    a < 0o17
}
""",
    "crates/trdp_wire/src/port/ports.rt": "//! Many ports.\n\nuse crate::seat::{Seat, sit};\n\npub struct Many;\n",
    "crates/trdp_wire/src/seat.rt": f"""//! Seats.

use crate::port::Place;

const ROOM: usize = 140_000;

pub fn sit<F: Fn(u8, u8) -> u8>(
    &self,
    a: (u8, u8),
    b: Map<u8, u8>,
    c: u8,
    d: u8,
    e: F,
    f: u8,
)
    ensures told {{ a ≡ {{
    }} }}
{{
{LONG}}}

pub fn six(a: u8, b: u8, c: u8, d: u8, e: u8, f: u8) {{
    g(140_000)
}}
""",
    "crates/trdp_wire/specs/Wires.antt": """-- Wires.

-- 140000 in a remark
abbrev pub far : ℕ → ℕ
far n = 5

abbrev pub Near : ℕ
Near = 140000

abbrev pub left : ℕ
left = 140000
""",
    "crates/trdp_some_tests/src/lib.rt": "//! Tests.\n\npub struct Many;\n",
    "crates/trdp_some_tests/specs/Views.antt": "-- Views.\n\nabbrev pub far : ℕ\nfar = 1\n",
}
LINES = [
    "definitions: 1 (names that two crates have)",
    "types: 1 (names that two crates declare)",
    "modules: 1 (pairs that differ by an s)",
    "cycle: 3 (modules in the largest cycle of imports, of 1)",
    "parameters: 1 (functions with seven or more)",
    "body: 9 (lines of crates/trdp_wire/src/seat.rt:7: sit)",
    "limits: 4 (places that have a limit's number instead of its name)",
    "chain: 3 (trdp_base < trdp_wire < trdp_turns)",
    "outside: 33 (lines of code in trdp_wire, trdp_turns)",
    "constants: 1 (numbers with several names)",
]
FOUND = {"definitions": 1, "types": 1, "modules": 1, "cycle": 3, "parameters": 1, "body": 9, "limits": 4}


class House(unittest.TestCase):
    """A tree of a few crates, with copies of the tools."""

    def setUp(self) -> None:
        scratch = tempfile.TemporaryDirectory()
        self.addCleanup(scratch.cleanup)
        self.top = pathlib.Path(scratch.name)
        for path, text in TREE.items():
            (self.top / path).parent.mkdir(parents=True, exist_ok=True)
            (self.top / path).write_text(text)
        (self.top / "docs" / "tools").mkdir(parents=True)
        for tool in (TOOLS / "house", *TOOLS.glob("*.py")):
            shutil.copy(tool, self.top / "docs" / "tools" / tool.name)
        self.limits = self.top / "docs/tools/house_limits.toml"
        self.write(**FOUND)

    def write(self, **numbers: int) -> None:
        """Writes the file of the numbers."""
        self.limits.write_text("# Numbers\n" + "".join(f"{name} = {most}\n" for name, most in numbers.items()))

    def run_tool(self, *words: str) -> tuple[int, list[str]]:
        """The status of the tool in the tree, and the lines that it prints."""
        ran = subprocess.run([self.top / "docs/tools/house", *words], stdout=subprocess.PIPE,
                             stderr=subprocess.STDOUT, text=True, timeout=60)
        return ran.returncode, ran.stdout.splitlines()

    def test_it_counts(self) -> None:
        self.assertEqual(self.run_tool(), (0, LINES))
        self.assertEqual(self.run_tool("chain"), (0, [LINES[7]]))

    def test_it_lists_the_places(self) -> None:
        wire = "crates/trdp_wire"
        names = ("definitions", "types", "modules", "cycle", "parameters", "limits", "constants")
        self.assertEqual(self.run_tool("--places", *names), (0, [
            LINES[0],
            f"Near: crates/trdp_base/specs/Places.antt:3, {wire}/specs/Wires.antt:7",
            LINES[1],
            f"Place: crates/trdp_base/src/place.rt:6, {wire}/src/port.rt:6",
            LINES[2],
            f"trdp_wire: port: {wire}/src/port.rt, {wire}/src/port/ports.rt",
            LINES[3],
            f"{wire}/src/port.rt, {wire}/src/port/ports.rt, {wire}/src/seat.rt",
            LINES[4],
            f"{wire}/src/seat.rt:7: sit: 7",
            LINES[6],
            f"{wire}/src/seat.rt:5: ROOM: 140,000 is LINE_MAX",
            f"{wire}/src/seat.rt:31: no name: 140,000 is LINE_MAX",
            f"{wire}/specs/Wires.antt:8: Near: 140,000 is line_limit",
            f"{wire}/specs/Wires.antt:11: left: 140,000 is line_limit",
            LINES[9],
            f"140,000: crates/trdp_base/src/place.rt:3: LINE_MAX, {wire}/src/seat.rt:5: ROOM, "
            f"{wire}/specs/Wires.antt:8: Near, {wire}/specs/Wires.antt:11: left, {wire}/src/seat.rt:31: no name"]))

    def test_a_number_is_what_the_file_says(self) -> None:
        self.assertEqual(self.run_tool("--check"), (0, [*LINES[:7], "house: 7 numbers, 0 faults"]))
        self.write(**{**FOUND, "types": 0, "cycle": 4})
        self.assertEqual(self.run_tool("--check"), (1, [
            *LINES[:7],
            "types: 1, and at most 0 may be: docs/tools/house --places types lists them",
            "cycle: 3, which is less than 4: run docs/tools/house --lower",
            "house: 7 numbers, 2 faults"]))

    def test_the_file_only_falls(self) -> None:
        self.write(**{**FOUND, "types": 0, "cycle": 4})
        self.assertEqual(self.run_tool("--lower"), (0, []))
        self.assertIn("types = 0\n", self.limits.read_text())
        self.assertIn("cycle = 3\n", self.limits.read_text())
        for text in ("types = 1\n", "", "types = many\n"):
            with self.subTest(text):
                self.limits.write_text(text)
                status, lines = self.run_tool("--check")
                self.assertEqual((status, len(lines)), (1, 1))


if __name__ == "__main__":
    ran = unittest.main(exit=False, verbosity=0).result
    failed = len(ran.failures) + len(ran.errors)
    print(f"house: {ran.testsRun - failed} passed, {failed} failed")
    sys.exit(failed > 0)
