"""The text of docs/TRACE_OTHERS.md, for docs/tools/trace: the clauses of public functions and the mutants that
docs/TRACE_TABLE.md does not list."""
from __future__ import annotations

import pathlib
from collections.abc import Iterator

from trace_check import Others, Trace
from trace_evidence import Evidence
from trace_links import link, wrapped

HEAD = """\
# The other contracts and mutants

`docs/tools/trace` writes this page from the sources. [TRACE_TABLE](TRACE_TABLE.md) lists, for each rule, the nearest
public functions that hold it, with their nearest clauses. This page lists all other clauses of public functions, and
all mutants that name no rule. Of each crate it lists, in this order:

- the functions that hold no rule, by file, with all their clauses
- the functions that hold rules, with the clauses that TRACE_TABLE does not list
- the mutants that name no rule, with the functions that they change

A clause without a name is listed as `ensures`. A mutant may change a private function."""


def listed(head: str, functions: list[Others]) -> str:
    """An item with functions and the names of their clauses."""
    names = dict.fromkeys(f"`{it.function}` ({', '.join(it.clauses)})" for it in functions)
    return wrapped(f"- {head}: {', '.join(names)}", "  ")


def by_file(functions: list[Others]) -> Iterator[str]:
    """An item for each file, with its functions."""
    for file in dict.fromkeys(it.file for it in functions):
        yield listed(link(pathlib.PurePath(file).stem, file), [it for it in functions if it.file == file])


def mutant(it: Evidence) -> str:
    """A mutant, with the functions that it turns."""
    turned = ", ".join(dict.fromkeys(f"`{function.name}`" for function in it.functions))
    return wrapped(f"- Mutant {link(f'`{it.name}`', it.file)} of {turned}", "  ")


def others(trace: Trace) -> Iterator[str]:
    """The paragraphs of the page."""
    yield HEAD
    found = trace.others()
    for crate in trace.crates:
        own, holding = ([it for it in functions if it.crate == crate] for functions in found)
        items = [*by_file(own), *([listed("Hold rules", holding)] if holding else [])]
        items += [mutant(it) for it in trace.evidence if it.kind == "edit" and not it.rules and it.crate == crate]
        if items:
            yield f"## `{crate}`"
            yield "\n".join(items)
