#!/usr/bin/env python3
"""Which definitions docs/tools/promise prints, in which order, and what it takes for a fault: in a small tree.

    .ci/test_promise.py

Ends with a line as `promise: 4 passed, 0 failed`, and with status 1 if one fails.
"""
from __future__ import annotations

import pathlib
import re
import shutil
import subprocess
import sys
import tempfile
import unittest

TOP = pathlib.Path(__file__).resolve().parent.parent
TOOLS = TOP / "docs" / "tools"
USE = "use Rattle."
# The crates below the node: a type, a type with a model, and definitions that use each other in another order than
# Lib.antt lists them.
BASE = {
    "src/lib.rt": "//! Small types.\n\npub use place::Place;\n",
    "src/place.rt": "//! Places.\n\n/// Where it is.\n#[derive(Clone)]\npub struct Place {\n    /// The port.\n"
                    "    pub port: u16,\n}\n\n/// A side.\npub enum Side {\n    /// Left of it.\n    Left,\n}\n",
    "src/held.rt": "//! What is held.\n\nuse crate::place::Place;\n\n/// Held places.\npub struct Held {\n"
                   "    places: Vec<Place>,\n}\n\nimpl Model for Held {\n"
                   f"    ghost {USE}trdp_base.specs.Last.{{HeldState}};\n\n    ghost Value = {{ HeldState }};\n}}\n",
    "specs/Lib.antt": "pub mod First\npub mod Last\n",
    "specs/First.antt": f"""-- What comes first.
{USE}std.specs.Prelude.{{ℕ, ◌+◌, if◌then◌else◌}}
{USE}trdp_base.specs.Last.{{Late, second, ◌>>=◌}}
{USE}trdp_base.specs.declared.place.Side.TheVariants as side

-- names unused in a remark, in a string and as a label
abbrev pub first : ℕ → ℕ
first n = record {{ unused = n + codes "unused" (late side.Left) }}
-- a remark between the values
first m = if m then n else do second

abbrev pub unused : ℕ
unused = 0

-- a statement of the daemon
pub record IsOver (n : ℕ) : Type 0 where
  pub is : first n
""",
    "specs/Last.antt": f"""-- What comes last.
{USE}std.specs.Prelude.{{ℕ, List}}
{USE}trdp_base.specs.declared.place.Place.{{Place}}

-- what is late
pub data Late : Type 0 where
  second : (n : ℕ) → Late

-- one after another
infixl 10 ◌>>=◌
abbrev pub ◌>>=◌ : ℕ → ℕ
a >>= f = f

pub record HeldState : Type 0 where
  pub places : List Place
""",
}
NODE = f"""//! The node.

ghost {USE}trdp_base.specs.First.{{first}};

use trdp_base::Held;

impl Node {{
    /// A new one.
    pub fn new(held: &Held) -> Node
        ensures {{ first result }}
    {{
        unused()
    }}

    pub fn step(&mut self)
        ensures {{ first self.new }}
    {{
    }}
}}
"""
LAWS = ("no_invented_value", "no_invented_reply", "no_invented_confirm", "no_early_done", "no_invented_request",
        "history_is_the_run", "nodes_move_so")
OVER = f"//! Over.\n\nghost {USE}trdp_base.specs.First.{{IsOver}};\n\n"
TREE = {
    **{f"crates/trdp_base/{name}": text for name, text in BASE.items()},
    "crates/trdp_engine/src/lib.rt": "//! The node.\n",
    "crates/trdp_engine/src/node.rt": NODE,
    "crates/trdp_engine/src/run.rt": "//! Runs.\n\nimpl Node {\n    pub fn run(&self)\n        ensures { result }\n"
                                     "    {\n    }\n}\n",
    "crates/trdp_outbox/src/lib.rt": "//! Records.\n",
    "crates/trdp_outbox/src/outbox.rt": "//! Records.\n\nimpl Outbox {\n" + "".join(
        f"    pub fn {it}()\n        ensures {{ result }}\n    {{\n    }}\n" for it in ("new", "get")) + "}\n",
    "crates/trdp_net/src/lib.rt": "//! Networks.\n",
    "crates/trdp_net/src/laws.rt": OVER + "".join(f"pub fn {it}()\n    ensures {{ IsOver 1 }}\n{{}}\n" for it in LAWS),
    "crates/trdp_program/src/lib.rt": "//! Programs.\n",
    "crates/trdp_program/src/daemon.rt": OVER + "pub fn report_daemon() -> u8\n    ensures { IsOver result }\n{\n}\n",
    "crates.txt": "trdp_base:\ntrdp_outbox:\ntrdp_engine: trdp_base\ntrdp_net: trdp_base\ntrdp_program: trdp_base\n",
    "README.md": "1 lines of definitions for the node,\n1 more for a network of nodes, and 1 more for the daemon.\n",
    "docs/tools/kit_words.py": 'WORDS = {"ℕ": ("ℕ", "numbers"), "◌+◌": ("m + n", "sum"), "List": ("List", "list"), '
                               '"if◌then◌else◌": ("if", "if")}\nBESIDE: dict[str, str] = {}\n',
}
# What the page of the node has, without its first part.
BLOCKS = """\
/// Where it is.
pub struct Place {
    /// The port.
    pub port: u16,
}

/// A side.
pub enum Side {
    /// Left of it.
    Left,
}
--
-- what is late
pub data Late : Type 0 where
  second : (n : ℕ) → Late

-- one after another
infixl 10 ◌>>=◌
abbrev pub ◌>>=◌ : ℕ → ℕ
a >>= f = f

pub record HeldState : Type 0 where
  pub places : List Place
--
/// Held places.
struct Held { .. }  // in definitions: HeldState
--
-- names unused in a remark, in a string and as a label
abbrev pub first : ℕ → ℕ
first n = record { unused = n + codes "unused" (late side.Left) }
-- a remark between the values
first m = if m then n else do second
--
pub fn new()
    ensures { result }
--
pub fn get()
    ensures { result }
--
/// A new one.
pub fn new(held: &Held) -> Node
    ensures { first result }
--
pub fn step(&mut self)
    ensures { first self.new }
--
pub fn run(&self)
    ensures { result }
"""


class Promise(unittest.TestCase):
    """A tree of a few crates, with copies of the tools."""

    def setUp(self) -> None:
        scratch = tempfile.TemporaryDirectory()
        self.addCleanup(scratch.cleanup)
        self.top = pathlib.Path(scratch.name)
        for path, text in TREE.items():
            (self.top / path).parent.mkdir(parents=True, exist_ok=True)
            (self.top / path).write_text(text)
        for tool in (TOOLS / "promise", *TOOLS.glob("promise_*.py"), *TOOLS.glob("trace_*.py")):
            shutil.copy(tool, self.top / "docs" / "tools" / tool.name)

    def run_tool(self, *words: str) -> tuple[int, list[str]]:
        """The status of the tool in the tree, and the lines that it prints."""
        ran = subprocess.run([self.top / "docs/tools/promise", *words], stdout=subprocess.PIPE,
                             stderr=subprocess.STDOUT, text=True, timeout=60)
        return ran.returncode, ran.stdout.splitlines()

    def replace(self, path: str, old: str, new: str) -> None:
        """Replaces a text of a file."""
        text = (self.top / path).read_text()
        self.assertIn(old, text)
        (self.top / path).write_text(text.replace(old, new))

    def page(self, name: str) -> list[str]:
        """The blocks of code of a page, after its first part."""
        text = (self.top / "docs" / name).read_text()
        return re.findall(r"```\w+\n(.*?)```", text.partition("\n## Contents\n")[2], re.DOTALL)

    def test_a_page_has_what_its_contracts_reach_each_after_what_it_uses(self) -> None:
        self.assertEqual(self.run_tool(), (0, [
            "docs/PROMISE.md: 4 definitions in 2 modules, 10 lines; 7 lines of types",
            "docs/PROMISE_NETWORK.md: 1 definitions in 1 modules, 2 lines; 0 lines of types",
            "docs/PROMISE_DAEMON.md: 1 definitions in 1 modules, 2 lines; 0 lines of types",
            "promise: 3 pages, 0 faults"]))
        self.assertEqual("--\n".join(self.page("PROMISE.md")), BLOCKS)
        over = "-- a statement of the daemon\npub record IsOver (n : ℕ) : Type 0 where\n  pub is : first n\n"
        self.assertEqual(self.page("PROMISE_DAEMON.md"), [
            over, "pub fn report_daemon() -> u8\n    ensures { IsOver result }\n"])
        self.assertEqual((self.top / "README.md").read_text(),
                         "10 lines of definitions for the node,\n2 more for a network of nodes, and 2 more for the "
                         "daemon.\n")

    def test_a_page_or_figure_that_is_out_of_date_is_a_fault(self) -> None:
        self.assertEqual(self.run_tool("--check")[0], 1)
        self.run_tool()
        self.assertEqual(self.run_tool("--check")[0], 0)
        for path, old, new, name in (
                ("crates/trdp_base/specs/First.antt", "a statement of", "says of", "docs/PROMISE_NETWORK.md"),
                ("crates/trdp_base/src/place.rt", "The port", "A port", "docs/PROMISE.md"),
                ("crates/trdp_engine/src/run.rt", "{ result }", "{ !result }", "docs/PROMISE.md"),
                ("README.md", "10 lines", "11 lines", "README.md")):
            with self.subTest(path):
                self.replace(path, old, new)
                status, lines = self.run_tool("--check")
                self.assertEqual(status, 1)
                self.assertIn(f"{name}: docs/tools/promise writes another one", lines)
                self.replace(path, new, old)
        self.assertEqual(self.run_tool("--check")[0], 0)

    def test_what_cannot_be_written_is_a_fault(self) -> None:
        for path, old, new, fault in (
                ("README.md", "for the node", "for a node", "README.md: it does not say"),
                ("docs/tools/kit_words.py", '"List"', '"Lists"', "kit_words.py: it does not explain List"),
                ("crates/trdp_base/specs/Last.antt", "place.Place", "place.Plaice", "nothing declares Place"),
                ("crates/trdp_engine/src/run.rt", "fn run", "fn runs", "promise: no contract")):
            with self.subTest(path):
                self.replace(path, old, new)
                status, lines = self.run_tool()
                self.assertEqual(status, 1)
                self.assertIn(fault, "\n".join(lines))
                self.replace(path, new, old)

    def test_it_counts_what_a_contract_reaches(self) -> None:
        self.assertEqual(self.run_tool("report_daemon", "Node::walk"), (1, [
            "trdp_program report_daemon: 4 definitions in 2 modules, 10 lines; 3 lines of types",
            "promise: no contract of Node::walk"]))


if __name__ == "__main__":
    ran = unittest.main(exit=False, verbosity=0).result
    failed = len(ran.failures) + len(ran.errors)
    print(f"promise: {ran.testsRun - failed} passed, {failed} failed")
    sys.exit(failed > 0)
