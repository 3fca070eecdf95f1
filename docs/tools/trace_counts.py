"""How many rules have which kind of evidence, for docs/tools/trace: in docs/TRACE.md and in README."""
from __future__ import annotations

from collections.abc import Iterator

from trace_check import Trace
from trace_evidence import KINDS
from trace_links import link
from trace_pages import TOPICS, Rule

README = "README.md"


def numbers(trace: Trace, rules: list[Rule]) -> list[int]:
    """How many of these rules have a mutant, a row, a test, and none of the three."""
    kinds = [{kind for kind in KINDS if trace.shown(rule, kind)} for rule in rules]
    return [*(sum(kind in it for it in kinds) for kind in KINDS), sum(not it for it in kinds)]


def sentence(trace: Trace) -> str:
    """The numbers of all rules, in words."""
    edit, row, test, none = numbers(trace, trace.rules)
    single = sum(sum(len(trace.shown(rule, kind)) for kind in KINDS) == 1 for rule in trace.rules)
    return (f"There are {len(trace.rules)} rules: {edit} have a mutant, {row} have a row, {test} have a test, and "
            f"{none} have none of the three. {single} rules have only one mutant, row or test in all.")


def in_readme(trace: Trace) -> str:
    """What README says of them."""
    edit, row, test, _none = numbers(trace, trace.rules)
    return (f"each of {len(trace.rules)} rules with its definition and clauses; for {edit} a mutant, for {row} a row, "
            f"for {test} a test")


def readme_faults(trace: Trace) -> Iterator[str]:
    """What README says otherwise."""
    wanted = in_readme(trace)
    if wanted not in " ".join((trace.top / README).read_text().split()):
        yield f"{README}: does not say `{wanted}`"


def line_of(trace: Trace, name: str, rules: list[Rule]) -> str:
    """A line of the table: how many rules there are, and how many of them have a mutant, a row, a test, and none."""
    return f"| {name} | {' | '.join(map(str, [len(rules), *numbers(trace, rules)]))} |"


def table(trace: Trace, page: str) -> str:
    """The numbers of each topic, with a link to its rules in that page."""
    lines = ["| Topic | Rules | with a mutant | with a row | with a test | with none |", "|" + 6 * "---|"]
    for topic, (heading, _) in TOPICS.items():
        rules = [rule for rule in trace.rules if rule.topic == topic]
        lines.append(line_of(trace, link(heading, page, heading), rules))
    return "\n".join([*lines, line_of(trace, "all", trace.rules)])
