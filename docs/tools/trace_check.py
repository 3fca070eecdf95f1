"""All that is known of the rules, for docs/tools/trace, and what is wrong with it."""
from __future__ import annotations

import dataclasses
import functools
import pathlib
from collections.abc import Iterator
from typing import NamedTuple

import trace_evidence
import trace_pages
from trace_clauses import Clause, Function, Sources
from trace_evidence import Evidence
from trace_pages import Rule
from trace_specs import Definition, Id, Specs

# How many steps from a clause to a definition, by the definitions that are built on it.
STEPS = 14
# The same where a mutant is to turn a rule, and how many calls lie between it and the contract, in its own crate.
EDIT_STEPS = 5
EDIT_CALLS = 4
# How many functions a page lists of those that hold a rule, and how many of them may be laws.
LISTED = 5
LAWS = 2


@dataclasses.dataclass(frozen=True, order=True)
class Holder:
    """A function that holds a rule: whether it is a law, the steps from its nearest clauses to the definition, whether
    it is of another crate than the definition, its crate with the crate's place in crates.txt, its name, the names of
    these clauses, its file and its line, and whether other crates can call it."""

    is_law: bool
    steps: int
    is_elsewhere: bool
    order: int
    crate: str
    function: str
    clauses: tuple[str, ...]
    file: str
    line: int
    is_public: bool


class Others(NamedTuple):
    """A function with the clauses that are listed at no rule."""

    crate: str
    file: str
    function: str
    clauses: list[str]


class Trace:
    """The rules, with what is found of each."""

    def __init__(self, top: pathlib.Path) -> None:
        """Reads the repository."""
        self.top = top
        self.specs = Specs(top)
        self.sources = Sources(top)
        self.evidence = trace_evidence.all_evidence(top, self.sources)
        self.rules, self._page_faults = trace_pages.rules(top)
        self.above = functools.cache(self.specs.above)
        lines = (top / "crates.txt").read_text().splitlines()
        self.crates = [line.split(":")[0].split()[0] for line in lines if ":" in line]
        self._holders: dict[str, list[Holder]] = {}

    def definitions(self, rule: Rule) -> list[Definition]:
        """The definitions of a rule, by their remarks."""
        return self.specs.by_rule.get(rule.name, [])

    def shown(self, rule: Rule, kind: str) -> list[Evidence]:
        """The mutants, the rows or the tests of a rule."""
        return [it for it in self.evidence if it.kind == kind and rule.name in it.rules]

    def holders(self, rule: Rule) -> list[Holder]:
        """The functions whose clauses hold a rule, the nearest first. Private functions come in if no public one has
        such a clause."""
        if rule.name not in self._holders:
            found = sorted(it for function in self.sources.all if (it := self._holder(rule, function)))
            self._holders[rule.name] = [it for it in found if it.is_public] or found
        return self._holders[rule.name]

    def listed(self, rule: Rule) -> list[Holder]:
        """The nearest of these functions. Laws come last, and only if they are nearer than each other function."""
        functions, laws = ([it for it in self.holders(rule) if it.is_law == is_law] for is_law in (False, True))
        near = [it for it in functions if it.steps <= functions[0].steps + 1][:LISTED]
        nearer = [it for it in laws if not functions or it.steps < functions[0].steps]
        return near + nearer[:min(LAWS, LISTED - len(near))]

    def _holder(self, rule: Rule, function: Function) -> Holder | None:
        """A function that holds a rule, with its nearest clauses; nothing if none of its clauses holds it."""
        above = self.above(rule.name, STEPS)
        crate = function.crate
        is_elsewhere = crate not in {it.id.crate for it in self.definitions(rule)}
        found = [(steps, name_of(clause)) for clause in promises(function)
                 if (steps := nearest(clause, above)) is not None]
        if not found:
            return None
        least = min(found)[0]
        names = tuple(sorted({name for steps, name in found if steps == least}))
        return Holder(function.is_law, least, is_elsewhere, self.crates.index(crate), crate, function.name, names,
                      function.file, function.first, function.is_public)

    def others(self) -> tuple[list[Others], list[Others]]:
        """The public functions with clauses that are listed at no rule: those that hold no rule, and those that do."""
        listed = {(it.file, it.line, clause) for rule in self.rules for it in self.listed(rule)
                  for clause in it.clauses}
        reached = {it for rule in self.rules for it in self.above(rule.name, STEPS)}
        without, holding = list[Others](), list[Others]()
        for it in self.sources.all:
            names = dict.fromkeys(map(name_of, promises(it)))
            if left := [name for name in names if it.is_public and (it.file, it.first, name) not in listed]:
                holds = any(clause.named & reached for clause in promises(it))
                (holding if holds else without).append(Others(it.crate, it.file, it.name, left))
        return without, holding

    def _turns(self, edit: Evidence, rule: str) -> bool:
        """Whether a mutant turns a function whose contract, or that of one that calls it, reaches the rule."""
        above = self.above(rule, EDIT_STEPS)
        return any(nearest(clause, above) is not None for it in self.sources.with_callers(edit.functions, EDIT_CALLS)
                   for clause in it.clauses)

    def faults(self) -> list[str]:
        """All that is wrong."""
        return [*self._page_faults, *self.specs.faults, *trace_evidence.misspelled(self.top),
                *trace_evidence.lost(self.top, self.evidence), *self._unknown(),
                *(fault for rule in self.rules for fault in self._faults_of(rule))]

    def _unknown(self) -> Iterator[str]:
        """Names that no page has."""
        names = {rule.name for rule in self.rules}
        for it in self.evidence:
            if not it.name:
                yield f"{it.file}: {', '.join(it.rules)}: a remark above no test"
            for name in it.rules:
                if name not in names:
                    yield f"{it.file}: {name}: no page has this rule"
                elif it.kind == "edit" and not self._turns(it, name):
                    yield f"{it.file}: {name}: no contract of what it turns reaches the definition of this rule"
        for name, found in self.specs.by_rule.items():
            if name not in names:
                yield f"{found[0].id.file}: {name}: no page has this rule"

    def _faults_of(self, rule: Rule) -> Iterator[str]:
        """What is wrong with a rule."""
        found = sorted(it.id.name for it in self.definitions(rule))
        if found != sorted(rule.definitions):
            here, there = ", ".join(rule.definitions), ", ".join(found) or "nothing"
            yield f"{rule.page}: {rule.name}: names {here}, and the remarks are at {there}"
        if not any(self.shown(rule, kind) for kind in trace_evidence.KINDS):
            yield f"{rule.page}: {rule.name}: no mutant, no row and no test"
        if found and not self.holders(rule):
            yield f"{rule.page}: {rule.name}: no clause reaches its definition"


def promises(function: Function) -> list[Clause]:
    """The clauses of a function that say what it does."""
    return [it for it in function.clauses if it.kind != "requires"]


def name_of(clause: Clause) -> str:
    """The name of a clause; `ensures` if it has none of its own."""
    return clause.name or "ensures"


def nearest(clause: Clause, above: dict[Id, int]) -> int | None:
    """The number of steps from a clause to a definition."""
    return min((above[it] for it in clause.named if it in above), default=None)
