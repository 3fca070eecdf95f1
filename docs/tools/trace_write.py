"""The text that docs/tools/trace writes: docs/TRACE_TABLE.md, and the parts of docs/TRACE.md that are not written by
hand.

Links have no line numbers: these would change with each edit of a crate. `docs/tools/trace RULE` prints them.
"""
from __future__ import annotations

import pathlib
from collections.abc import Iterable

import gate_lines
import trace_counts
from trace_check import Trace
from trace_evidence import KINDS, Evidence
from trace_links import link, wrapped
from trace_others import others
from trace_pages import TOPICS, Rule
from written_parts import with_part

SCRIPT = "docs/tools/trace"
FRONT, TABLE, OTHERS = "docs/TRACE.md", "docs/TRACE_TABLE.md", "docs/TRACE_OTHERS.md"
HEAD = f"""# The rules, one by one

`{SCRIPT}` writes this page from the sources; [TRACE](TRACE.md) says how to read it. Links have no line numbers.
`{SCRIPT} RULE` prints them, with all contracts that hold the rule."""


def held(trace: Trace, rule: Rule) -> str:
    """The functions that hold a rule, with their clauses: the nearest ones, and whether there are others."""
    found, listed = trace.holders(rule), trace.listed(rule)
    crates = dict.fromkeys(it.crate for it in listed)
    texts = [f"`{crate}` " + ", ".join(f"{link(f'`{it.function}`', it.file)} ({', '.join(it.clauses)})" for it in listed
                                       if it.crate == crate) for crate in crates]
    private = "" if found[0].is_public else "private functions of "
    return private + "; ".join(texts) + ("; and others" if len(found) > len(listed) else "")


def evidence(it: Evidence, rule: Rule) -> str:
    """A mutant, a row or a test, with how it bears on a rule."""
    kind = {"edit": "Mutant", "row": "Row", "test": "Test"}[it.kind]
    name = it.name if it.kind == "row" else f"`{it.name}`"
    return f"- {kind} {link(name, it.file)}: {it.rules[rule.name]}"


def block(trace: Trace, rule: Rule) -> str:
    """A rule with all that is found of it."""
    found = trace.definitions(rule)
    words = rule.words or "; ".join(it.words for it in found)
    page = link(pathlib.PurePath(rule.page).stem, rule.page, rule.heading)
    items = [f"- Said in {page}; promise: {rule.promise}",
             "- Definition " + ", ".join(link(f"`{it.id.name}`", it.id.file) for it in found),
             f"- Held by {held(trace, rule)}",
             *(evidence(it, rule) for kind in KINDS for it in trace.shown(rule, kind))]
    return "\n".join([f"### `{rule.name}`", "", wrapped(words), "", *(wrapped(it, "  ") for it in items)])


def table(trace: Trace) -> str:
    """docs/TRACE_TABLE.md."""
    parts = [HEAD]
    for topic, (heading, _) in TOPICS.items():
        rules = [rule for rule in trace.rules if rule.topic == topic]
        if rules:
            parts += [f"## {heading}", *(block(trace, rule) for rule in rules)]
    return page_of(parts)


def page_of(parts: Iterable[str]) -> str:
    """A page of these paragraphs."""
    return "\n\n".join(parts) + "\n"


def front(trace: Trace) -> str:
    """docs/TRACE.md, with the parts that are not written by hand. Raises gate_lines.Fault if docs/gate.json is of no
    use, and written_parts.NoPlace if a part has no place."""
    page = (trace.top / FRONT).read_text()
    page = with_part(page, SCRIPT, "the numbers", wrapped(trace_counts.sentence(trace)))
    page = with_part(page, SCRIPT, "the topics", trace_counts.table(trace, TABLE))
    return with_part(page, SCRIPT, "the last whole run", gate_lines.page_lines(gate_lines.last_run(trace.top)))


def written(trace: Trace) -> dict[str, str]:
    """Each page with its text. Raises what `front` does."""
    return {FRONT: front(trace), TABLE: table(trace), OTHERS: page_of(others(trace))}
