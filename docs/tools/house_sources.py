"""The form of the sources, for docs/tools/house: the longest chain of crates, the lines around the node, cycles of
imports, and functions that are too long or have too many parameters."""
from __future__ import annotations

import functools
import pathlib
import re
from collections import defaultdict

from counted_lines import count_crate
from promise_types import Types
from trace_clauses import Function

# The crates of the node, of scripts and of the library for C. Those around the node are all others but those of tests.
INSIDE = {
    "trdp_base", "trdp_fcs", "trdp_timers", "trdp_head", "trdp_dataset", "trdp_marshal", "trdp_filter", "trdp_pd",
    "trdp_md", "trdp_model", "trdp_table", "trdp_outbox", "trdp_text", "trdp_index", "trdp_store", "trdp_calls",
    "trdp_datagrams", "trdp_engine", "trdp_example", "trdp_net", "trdp_script", "trdp_node",
}
MANY = 7
# The end of a signature without clauses, and the beginning of the body.
OPENS = re.compile(r"^(?! *(?:ensures|requires)\b).*\{$")


def crates(top: pathlib.Path) -> dict[str, list[str]]:
    """Each crate with those of the repository that it depends on, in the order of crates.txt."""
    lines = [line.split(":") for line in (top / "crates.txt").read_text().splitlines() if ":" in line]
    names = {name.split()[0] for name, _ in lines}
    return {name.split()[0]: [it for it in below.split() if it in names] for name, below in lines}


def chain(top: pathlib.Path) -> list[str]:
    """The longest chain of crates, each of which depends on the one before it; if there are several, one of the last
    crate."""
    longest: dict[str, list[str]] = {}
    for name, below in crates(top).items():
        longest[name] = [*max((longest[it] for it in below), key=len, default=[]), name]
    return max(reversed(longest.values()), key=len, default=[])


def outside(top: pathlib.Path) -> dict[str, int]:
    """How many lines of code each crate around the node has."""
    found = [it for it in crates(top) if it not in INSIDE and not it.endswith("_tests")]
    return {it: count_crate(top / "crates" / it)["code"] for it in found}


def imports(known: Types) -> dict[tuple[str, str], set[tuple[str, str]]]:
    """The modules of its own crate from which each module imports, by crate and path."""
    found: dict[tuple[str, str], set[tuple[str, str]]] = defaultdict(set)
    for (crate, path), source in known.sources.items():
        for origin, _ in source.taken.values():
            base, *parts = origin.split("::")
            parts = [*path.split("/")[:-1], *parts] if base == "super" else parts
            fronts = [(crate, "/".join(parts[:end])) for end in range(len(parts), 0, -1)]
            if base in ("crate", "super"):
                found[crate, path].update([it for it in fronts if it in known.sources][:1])
    return {it: modules - {it} for it, modules in found.items()}


def cycles(known: Types) -> list[list[str]]:
    """The cycles of imports, the largest first: modules that all reach each other."""
    edges = imports(known)

    @functools.cache
    def below(it: tuple[str, str]) -> frozenset[tuple[str, str]]:
        found: set[tuple[str, str]] = set()
        edge = set(edges.get(it, ()))
        while edge:
            found |= edge
            edge = {far for near in edge for far in edges.get(near, ())} - found
        return frozenset(found)

    groups = {frozenset(one for one in below(it) if it in below(one)) for it in edges if it in below(it)}
    return sorted(([f"crates/{crate}/src/{path}.rt" for crate, path in sorted(it)] for it in groups),
                  key=lambda it: (-len(it), it))


def parameters(signature: str) -> int:
    """How many parameters a function has, `self` among them, by its text from its name on."""
    depth, count, is_inside, has_any = 0, 0, False, False
    for at, sign in enumerate(signature):
        if sign == "(" and depth == 0 and not is_inside:
            is_inside = True
        elif sign in "(<[":
            depth += 1
        elif sign == ")" and is_inside and depth == 0:
            return count + has_any
        elif sign in ")]" or sign == ">" and signature[at - 1] != "-":
            depth -= 1
        elif sign == "," and is_inside and depth == 0:
            count, has_any = count + 1, False
        elif is_inside and not sign.isspace():
            has_any = True
    return count + has_any


def crowded(top: pathlib.Path, functions: list[Function]) -> dict[str, int]:
    """The functions with many parameters, by place and name."""
    found: dict[str, int] = {}
    for it in functions:
        text = "\n".join(lines_of(top / it.file)[it.first - 1:it.last])
        count = parameters(text[text.index(it.own_name) + len(it.own_name):])
        if count >= MANY:
            found[f"{it.file}:{it.first}: {it.name}"] = count
    return found


def bodies(top: pathlib.Path, functions: list[Function]) -> dict[str, int]:
    """How many lines the body of each function has, by place and name."""
    found: dict[str, int] = {}
    for it in functions:
        lines = lines_of(top / it.file)[it.first - 1:it.last]
        indent = len(lines[0]) - len(lines[0].lstrip())
        opened = [at for at, line in enumerate(lines) if line == " " * indent + "{" or OPENS.search(line)]
        if opened:
            found[f"{it.file}:{it.first}: {it.name}"] = max(len(lines) - opened[0] - 2, 0)
    return found


@functools.cache
def lines_of(path: pathlib.Path) -> list[str]:
    """The lines of a source file, without remarks at the end of lines."""
    return [re.sub(r" *//.*", "", line).rstrip() for line in path.read_text().splitlines()]
