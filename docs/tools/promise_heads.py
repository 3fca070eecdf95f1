"""Which pages docs/tools/promise writes, how each begins, and where README has its figures."""
from __future__ import annotations

import re

from promise_pages import Page

# The figures in README: the lines of the pages README_PAGES, in this order.
README_WORDS = "N lines of definitions for the node, N more for a network of nodes, and N more for the daemon"
README = re.compile(README_WORDS.replace(" ", r"\s+").replace("N", r"([\d,]+)"))
README_PAGES = ("docs/PROMISE.md", "docs/PROMISE_NETWORK.md", "docs/PROMISE_DAEMON.md")

NODE = """\
`docs/tools/promise` writes this page from the sources. It has every definition that the contracts of `Node::new`,
`Node::step` and `Node::run` rest on, and of `Outbox::new` and `Outbox::get`, which returns the records: {lines} lines
in {modules} modules, and {types} lines of the types that events and records are made of. If you trust the prover, this
page is all that you need to read to know exactly what the node promises. You need to read no proof, and no code.

[MODEL](MODEL.md) explains the same in plain words: start there for an overview. [PROMISE_NETWORK](PROMISE_NETWORK.md)
and [PROMISE_DAEMON](PROMISE_DAEMON.md) have what is promised of a network of nodes and of the daemon.

## How to read it

Read from the top. A definition comes after the definitions that it uses, and [the contracts](#the-contracts) come last.
Or begin with the contracts, and search for each name that you find there.

This is a definition, with its remark, its type and its values:

```text
-- how many slots there are after any event, admitted or not
abbrev pub slots_then : ℕ → EventModel → ℕ
slots_then n (AddSlotIs quotas) = if nat_lt n slot_limit then n + 1 else n
slots_then n event = n
```

`slots_then` takes a number and an event, and gives a number. The first line that fits says which: an event that opens a
slot gives one more, unless there are as many as there may be; any other event gives the same number. Arguments follow
a function without brackets: `slots_then 3 event`.

| Written | Meaning |
|---|---|
| `A → B → C` | in a type: takes an A and a B, and gives a C |
| `(f x)`, `λ x. e` | f of x; the function that makes e of x |
| `data T : .. where` | a value of T has one of the forms below |
| `record T : .. where` | a value of T has all the fields below; `x.f` is the field f of x |
| `record {{ f = v }}`, `record x {{ f = v }}` | a value with these fields; x with v as its f |
| `let x = e in ..`, `do`, `x ← o` | x is short for e; for the value of o, and all is `None` if o has no value |
| `Type 0` | at the end of a type: it is a statement, true or false; a record is true if all its fields are |
| `P × Q`, `P → Q` | P and Q; if P, then Q |
| `(x : A) → P`, `(x : A) × P` | P is true of every x; of some x |
| `Unit {{0}}`, `⊥` | what is always true; what is never true |
| `{{A : Type 0}} →` | it is the same for every type A |
| `-- rule: NAME` | the definition states that rule of [TRACE_TABLE](TRACE_TABLE.md) |
| `abbrev`, `unfoldable`, `unfolding ..`, `pub` | of interest only to the prover |

Types of the sources are in Rust. In definitions `u8` to `u64` are numbers (ℕ) of that range, `i32` is ℤ, and `Vec<T>`
and `&[T]` are lists. `x.now` is what a reference points at, and `v.items` are the elements of a `Vec`. A type whose
fields are private is seen as another one, its model. [PROOFS](PROOFS.md#how-to-read-a-contract) explains contracts.
"""

NETWORK = """\
`docs/tools/promise` writes this page from the sources. It has the definitions that the promises about a network of
nodes rest on, without those of [PROMISE](PROMISE.md): {lines} lines in {modules} modules. PROMISE explains how to read
a definition, and what the words of the kit mean. [MODEL](MODEL.md#the-network-in-an-hour-trdp_net) explains these
promises in plain words.

A definition comes after the definitions that it uses, and [the contracts](#the-contracts) come last. They are laws:
functions that do nothing, whose contracts are theorems.
"""

DAEMON = """\
`docs/tools/promise` writes this page from the sources. It has the definitions that the contract of `report_daemon`
rests on, without those of [PROMISE](PROMISE.md): {lines} lines in {modules} modules. `trdpd daemon` is a call of
`report_daemon`. PROMISE explains how to read a definition, and what the words of the kit mean.
[MODEL](MODEL.md#the-daemon-trdp_daemon) explains the daemon in plain words.

A definition comes after the definitions that it uses, and [the contract](#the-contracts) comes last. There
`W.attempts` is what the stream for totals was asked to take, and `E.contents` is what was written to the stream for
errors. A stream may report neither. [PROOFS](PROOFS.md#what-no-contract-says) lists what this contract does not say.
"""

PAGES = (
    Page("docs/PROMISE.md", "The promise of the node, in full", NODE, (
        ("trdp_outbox", "outbox", "Outbox::new"), ("trdp_outbox", "outbox", "Outbox::get"),
        ("trdp_engine", "node", "Node::new"), ("trdp_engine", "node", "Node::step"),
        ("trdp_engine", "run", "Node::run"))),
    Page("docs/PROMISE_NETWORK.md", "The promise of a network of nodes, in full", NETWORK, tuple(
        ("trdp_net", "laws", name) for name in (
            "no_invented_value", "no_invented_reply", "no_invented_confirm", "no_early_done", "no_invented_request",
            "history_is_the_run", "nodes_move_so")), after="docs/PROMISE.md"),
    Page("docs/PROMISE_DAEMON.md", "The promise of the daemon, in full", DAEMON,
         (("trdp_program", "daemon", "report_daemon"),), after="docs/PROMISE.md"),
)
