"""What docs/tools/trace prints of a rule: where it is said, defined and held, and what shows it, each with its line."""
from __future__ import annotations

from collections.abc import Iterator

from trace_check import Trace
from trace_evidence import KINDS
from trace_pages import Rule

WORDS = {"edit": "mutant", "row": "row", "test": "test"}


def lines_of(trace: Trace, rule: Rule) -> Iterator[str]:
    """The lines of a rule: `FILE:LINE: what is there`."""
    found = trace.definitions(rule)
    yield f"{rule.name}: {rule.words or '; '.join(it.words for it in found)}"
    yield f"{rule.page}:{rule.line}: said"
    yield from (f"{it.id.file}:{it.line}: defined by {it.id.name}" for it in found)
    yield from (f"{it.file}:{it.line}: held by {it.function} ({', '.join(it.clauses)})" for it in trace.holders(rule))
    for kind in KINDS:
        yield from (f"{it.file}:{it.line}: {WORDS[kind]} {it.name}: {it.rules[rule.name]}"
                    for it in trace.shown(rule, kind))


def show(trace: Trace, names: list[str]) -> int:
    """Prints these rules, and gives the status: 1 if there is no rule of a name."""
    rules = {rule.name: rule for rule in trace.rules}
    for name in names:
        print("\n".join(lines_of(trace, rules[name])) if name in rules else f"trace: no rule {name}")
    return int(any(name not in rules for name in names))
