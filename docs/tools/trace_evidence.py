"""What shows a rule, for docs/tools/trace: the mutants of crates/*/must-fail, the rows and the tests that name it.

A tag is a line of its own: `# rule: publisher.cycle: is next due in the past after a jump, and sends again`. It has the
rule, and in a few words how the evidence bears on it. Of a mutant these say what it does wrong, of a row or a test what
it shows. That the words are true, and that the rule is the right one, is found by review.
"""
from __future__ import annotations

import ast
import dataclasses
import pathlib
import re
from collections.abc import Iterable, Iterator

from trace_clauses import Function, Sources

KINDS = ("edit", "row", "test")
TAG = re.compile(r"\s*(?:#|//) rule: ([a-z]+\.[a-z]+): (\S(?:.*[^\s.])?)$")
NAMED = re.compile(r"\s*(?:#|//) rule: [a-z]+\.[a-z]+")
# What looks like a tag, in the files that have some.
TAGGED = (("crates/*/must-fail/*.edit", "#"), ("rows/*.rows", "#"), ("clients/python/tests/*/test_*.py", "#"),
          ("crates/*_tests/src/**/*.rt", "//"))


@dataclasses.dataclass
class Evidence:
    """A mutant, a row or a test: its kind, its file and its line, its name, and with each rule that it names the words
    that say how it bears on it. Of a mutant also the functions that it turns."""

    kind: str
    file: str
    line: int
    name: str
    rules: dict[str, str]
    functions: list[Function] = dataclasses.field(default_factory=list)

    @property
    def crate(self) -> str:
        """The crate of a mutant."""
        return self.file.split("/")[1]


def tags(lines: Iterable[str]) -> dict[str, str]:
    """The rules that lines name, each with its words."""
    return {found[1]: found[2] for line in lines if (found := TAG.match(line))}


def turned(top: pathlib.Path, crate: str, lines: list[str], sources: Sources) -> list[Function]:
    """The functions that a mutant turns."""
    file, found = "", []
    for line in lines:
        if line.startswith("file: "):
            file = f"crates/{crate}/{line[6:].strip()}"
        elif line.startswith("old: "):
            text = (top / file).read_text()
            found += sources.at(file, text[:max(text.find(line[5:]), 0)].count("\n") + 1)
    return found


def edits(top: pathlib.Path, sources: Sources) -> Iterator[Evidence]:
    """All mutants; not each of them names a rule."""
    for path in sorted(top.glob("crates/*/must-fail/*.edit")):
        lines, place = path.read_text().splitlines(), path.relative_to(top)
        yield Evidence("edit", str(place), 1, path.stem, tags(lines), turned(top, place.parts[1], lines, sources))


def rows(top: pathlib.Path) -> Iterator[Evidence]:
    """The rows that name rules."""
    for path in sorted(top.glob("rows/*.rows")):
        lines = path.read_text().splitlines()
        heads = [at for at, line in enumerate(lines) if line.startswith("== ")]
        for head, end in zip(heads, [*heads[1:], len(lines)]):
            if rules := tags(lines[head:end]):
                yield Evidence("row", str(path.relative_to(top)), head + 1, lines[head][3:], rules)


def rattle_tests(top: pathlib.Path) -> Iterator[Evidence]:
    """The tests in Rattle with tags above them."""
    for path in sorted(top.glob("crates/*_tests/src/**/*.rt")):
        lines, first = path.read_text().splitlines(), 0
        for index, line in enumerate([*lines, ""]):
            if TAG.match(line):
                continue
            if rules := tags(lines[first:index]):
                found = re.match(r"#\[test\] fn (\w+)", " ".join(lines[index:index + 2]))
                yield Evidence("test", str(path.relative_to(top)), index + 1, found[1] if found else "", rules)
            first = index + 1


def python_tests(top: pathlib.Path) -> Iterator[Evidence]:
    """The tests of the clients with tags in them."""
    for path in sorted(top.glob("clients/python/tests/*/test_*.py")):
        text = path.read_text()
        if "rule: " not in text:
            continue
        lines = text.splitlines()
        for node in ast.walk(ast.parse(text)):
            if isinstance(node, ast.FunctionDef) and node.name.startswith("test_") and node.end_lineno:
                if rules := tags(lines[node.lineno - 1:node.end_lineno]):
                    yield Evidence("test", str(path.relative_to(top)), node.lineno, node.name, rules)


def misspelled(top: pathlib.Path) -> Iterator[str]:
    """The lines that are to be tags and aren't: they name no rule, or don't say how the evidence bears on one."""
    for pattern, begin in TAGGED:
        for path in sorted(top.glob(pattern)):
            for number, line in enumerate(path.read_text().splitlines(), 1):
                if re.match(rf"\s*{begin}\s*rules?\b:", line) and not TAG.match(line):
                    why = "says not how it bears on the rule" if NAMED.match(line) else "names no rule"
                    yield f"{path.relative_to(top)}:{number}: {why}"


def lost(top: pathlib.Path, evidence: list[Evidence]) -> Iterator[str]:
    """The files with a tag that belongs to none of the evidence, or that says the same rule of it again."""
    for path in sorted(path for pattern, _begin in TAGGED for path in top.glob(pattern)):
        place = str(path.relative_to(top))
        count = sum(bool(TAG.match(line)) for line in path.read_text().splitlines())
        if count != sum(len(it.rules) for it in evidence if it.file == place):
            yield f"{place}: a tag belongs to no row and no test, or names a rule twice"


def all_evidence(top: pathlib.Path, sources: Sources) -> list[Evidence]:
    """All mutants, and the rows and tests that name rules."""
    return [*edits(top, sources), *rows(top), *rattle_tests(top), *python_tests(top)]
