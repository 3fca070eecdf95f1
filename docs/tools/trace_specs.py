"""The definitions of crates/*/specs, for docs/tools/trace: the rules that each is of, its words, and what it is built
on."""
from __future__ import annotations

import dataclasses
import pathlib
import re
from collections.abc import Iterator

KINDS = r"(?:(?:abbrev|unfoldable|pub|record|data) )*"
HEAD = re.compile(KINDS + r"\(?([^\s:(]+)")
# What a line begins with that declares a definition; other lines at the margin are its equations.
DECLARES = re.compile(r"(?:abbrev|unfoldable|pub|record|data|mutual|infix[lr]?)\b|[^\s:(]+ :")
NO_HEAD = ("use ", "pub mod ", "unfolding", "where")
IMPORT = re.compile(r"use Rattle\.(trdp_\w+)\.(specs\.[\w.]+)\.\{([^}]*)\}")
WORD = re.compile(r"[A-Za-z_][\w'-]*")
# A definition, or a form of a value, that is declared below another line.
INNER = re.compile(r" +(?:pub )?(?:(?:data|record) )?([^\s:(]+) :")
REMARK = "-- rule:"


@dataclasses.dataclass(frozen=True, order=True)
class Id:
    """A definition by its crate, its module and its name."""

    crate: str
    module: str
    name: str

    @property
    def file(self) -> str:
        """The file that it is in."""
        return f"crates/{self.crate}/{self.module.replace('.', '/')}.antt"


@dataclasses.dataclass
class Definition:
    """A definition: the line at which it begins, its rules, what its remark says, the first line of its remarks, its
    last line, and the text that it consists of. One that is declared with others (`mutual`) has the name of the
    first."""

    id: Id
    line: int
    rules: list[str]
    words: str
    first: int
    last: int
    text: str = ""


def imports(text: str) -> dict[str, Id]:
    """What a text takes from definitions, by the name that it has there."""
    found: dict[str, Id] = {}
    for crate, module, names in IMPORT.findall(text):
        for item in names.split(","):
            name, _, renamed = item.strip().partition(" as ")
            found[renamed or name] = Id(crate, module, name)
    return found


def declared(lines: list[str], index: int) -> str:
    """The name that a line declares: of a fixity, the name that it is of; of `mutual`, the first one below it."""
    line = lines[index]
    if line.startswith("infix"):
        return line.split()[-1]
    if line == "mutual":
        return next((it[1] for below in lines[index + 1:] if (it := INNER.match(below))), line)
    head = HEAD.match(line)
    return head[1] if head else ""


def definitions_in(crate: str, module: str, text: str) -> Iterator[Definition]:
    """The definitions of a file, in their order. A definition's remarks are the lines of `--` directly above it."""
    current: Definition | None = None
    above: list[str] = []
    lines = text.splitlines()
    for index, line in enumerate(lines):
        if line.startswith("--"):
            above.append(line)
            continue
        if DECLARES.match(line) and not line.startswith(NO_HEAD):
            name = declared(lines, index)
            if current is None or name != current.id.name:
                if current:
                    yield current
                rules = [name for it in above if it.startswith(REMARK) for name in it.split()[2:]]
                words = " ".join(it[3:] for it in above if not it.startswith(REMARK))
                at = index + 1
                current = Definition(Id(crate, module, name), at, rules, words, at - len(above), at)
        above = []
        if current:
            current.text += line + "\n"
            current.last = index + 1 if line.strip() else current.last
    if current:
        yield current


class Specs:
    """All definitions, with what each names of the others."""

    def __init__(self, top: pathlib.Path) -> None:
        """Reads those below the folder of the repository."""
        self.all: dict[Id, Definition] = {}
        self.faults: list[str] = []
        self._users: dict[Id, set[Id]] = {}
        for path in sorted(top.glob("crates/*/specs/**/*.antt")):
            self._read(path, path.relative_to(top))
        self.by_rule: dict[str, list[Definition]] = {}
        for it in self.all.values():
            for rule in it.rules:
                self.by_rule.setdefault(rule, []).append(it)

    def _read(self, path: pathlib.Path, place: pathlib.Path) -> None:
        """Reads a file."""
        text = path.read_text()
        module = ".".join(place.with_suffix("").parts[2:])
        found = list(definitions_in(place.parts[1], module, text))
        taken = imports(text) | {it.id.name: it.id for it in found}
        self.all.update({it.id: it for it in found})
        for it in found:
            for name in {taken[word] for word in WORD.findall(it.text) if word in taken} - {it.id}:
                self._users.setdefault(name, set()).add(it.id)
        lines = [line for line in text.splitlines() if re.match(r"--\s*rule\b", line)]
        if sum(len(line.split()) - 2 for line in lines) != sum(len(it.rules) for it in found):
            self.faults.append(f"{place}: a remark of a rule is above no definition, or is misspelled")

    def above(self, rule: str, depth: int) -> dict[Id, int]:
        """The definitions that are built on those of a rule, and these, with the number of steps to the nearest."""
        steps: dict[Id, int] = {}
        edge = {it.id for it in self.by_rule.get(rule, [])}
        for step in range(depth + 1):
            steps.update({it: step for it in edge})
            edge = {user for it in edge for user in self._users.get(it, ())} - steps.keys()
        return steps
