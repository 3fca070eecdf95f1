"""The contracts of crates/*/src, for docs/tools/trace: each function with its clauses and the definitions that they
name."""
from __future__ import annotations

import dataclasses
import pathlib
import re

from trace_specs import WORD, Id, imports

VISIBLE = r"(?:pub(?:\([\w ]+\))? )?"
FUNCTION = re.compile(r"( *)(pub(?:\([\w ]+\))? )?(?:const )?fn (\w+)")
CLAUSE = re.compile(r" *(ensures|requires)\*? ?(\w*) ?\{")
BLOCK = re.compile(VISIBLE + r"(?:impl|trait)\b")
GHOST = re.compile(r" +ghost (\w+)(?:: | = )\{")
CONSTANT = re.compile(r" *" + VISIBLE + r"(?:const|static) (\w+):")


@dataclasses.dataclass
class Clause:
    """A clause of a contract: its kind, its name if it has one, and what it names of definitions."""

    kind: str
    name: str
    named: set[Id]
    words: set[str]


@dataclasses.dataclass
class Function:
    """A function: its crate and its file, the name with its type, whether other crates can call it and whether it is a
    law, its lines, and its clauses."""

    crate: str
    file: str
    name: str
    is_public: bool
    is_law: bool
    first: int
    last: int
    words: set[str]
    clauses: list[Clause] = dataclasses.field(default_factory=list)

    @property
    def own_name(self) -> str:
        """Its name without the type."""
        return self.name.split("::")[-1]


@dataclasses.dataclass
class Block:
    """An impl, a trait or a whole file: its type or trait, the trait that it implements, and what it defines."""

    owner: str = ""
    trait: str = ""
    is_trait: bool = False
    taken: dict[str, Id] = dataclasses.field(default_factory=dict)
    ghosts: list[Clause] = dataclasses.field(default_factory=list)


def braced(lines: list[str], start: int) -> tuple[str, int]:
    """The text from a line on up to where its braces are closed, and the number of its last line."""
    depth = 0
    for index in range(start, len(lines)):
        depth += lines[index].count("{") - lines[index].count("}")
        if depth <= 0:
            return "\n".join(lines[start:index + 1]), index
    return "\n".join(lines[start:]), len(lines) - 1


def end_of(lines: list[str], start: int, indent: str) -> int:
    """The last line of the function that begins at a line: where its body is closed, or its declaration ends."""
    for index in range(start, len(lines)):
        line = lines[index]
        if line == indent + "}" or line in (indent + "{}", indent + "{ }"):
            return index
        if index > start and (line == "}" or FUNCTION.match(line)):
            return index - 1
        if line.endswith("}") and index == start:
            return index
    return len(lines) - 1


def block_of(line: str) -> Block:
    """The block that a line at the margin opens."""
    plain = line
    while plain != (plain := re.sub(r"<[^<>]*>", "", plain)):
        pass
    found = re.match(VISIBLE + r"(impl|trait) +(?:([\w:]+) for )?(\w+)", plain)
    return Block(found[3], (found[2] or "").split("::")[-1], found[1] == "trait") if found else Block()


class Reader:
    """Reads the functions of a source file."""

    def __init__(self, crate: str, file: str, text: str) -> None:
        """Looks at the text of a file of that crate, which may be the file of its laws."""
        self.crate = crate
        self.source = file
        self.is_of_laws = file.endswith("/laws.rt")
        self.lines = [re.sub(r"//.*", "", line).rstrip() for line in text.splitlines()]
        self.file = self.block = Block()
        self.functions: list[Function] = []
        self.constants: dict[int, str] = {}
        self.traits: dict[str, list[Clause]] = {}
        self._read()

    def _clause(self, kind: str, name: str, text: str) -> Clause:
        """A clause of that text."""
        known = self.file.taken | self.block.taken
        words = set(WORD.findall(text))
        return Clause(kind, name, {known[word] for word in words if word in known}, words)

    def _read(self) -> None:
        """Reads all lines."""
        index = 0
        while index < len(self.lines):
            line = self.lines[index]
            if BLOCK.match(line):
                self.block = block_of(line)
            elif line == "}":
                self.block = self.file
            elif "ghost use " in line:
                self.block.taken.update(imports(line))
            elif found := GHOST.match(line):
                text, index = braced(self.lines, index)
                self.block.ghosts.append(self._clause("ghost", found[1], text))
            elif found := CONSTANT.match(line):
                index = self._constant(index, found[1])
            elif found := FUNCTION.match(line):
                self._function(index, found)
            index += 1

    def _constant(self, index: int, name: str) -> int:
        """Notes the lines of a constant; gives its last one."""
        while not self.lines[index].endswith(";"):
            self.constants[index + 1] = name
            index += 1
        self.constants[index + 1] = name
        return index

    def _function(self, index: int, found: re.Match[str]) -> None:
        """Notes the function that begins at a line."""
        last = end_of(self.lines, index, found[1])
        name = f"{self.block.owner}::{found[3]}" if self.block.owner else found[3]
        is_public = found[2] == "pub " or bool(self.block.trait) or self.block.is_trait
        words = set(WORD.findall("\n".join(self.lines[index:last + 1])))
        it = Function(self.crate, self.source, name, is_public, self.is_of_laws, index + 1, last + 1, words)
        for at in range(index, last + 1):
            if clause := CLAUSE.match(self.lines[at]):
                it.clauses.append(self._clause(clause[1], clause[2], braced(self.lines, at)[0]))
        if self.block.is_trait:
            self.traits[name] = it.clauses
        if self.block.trait:
            it.clauses += [dataclasses.replace(ghost, kind=f"ghost {self.block.trait}") for ghost in self.block.ghosts]
        self.functions.append(it)


def exported(folder: pathlib.Path) -> set[str]:
    """The names that a crate gives to others: those of its `pub use`, of its public modules, and of its first page."""
    text = (folder / "src" / "lib.rt").read_text() if (folder / "src" / "lib.rt").exists() else ""
    names = {word for it in re.findall(r"^pub use ([^;]*);", text, re.MULTILINE) for word in WORD.findall(it)}
    for module in ["lib", *re.findall(r"^pub mod (\w+);", text, re.MULTILINE)]:
        path = folder / "src" / f"{module}.rt"
        if path.exists():
            names |= set(re.findall(r"^pub (?:const )?(?:fn|trait|struct|enum) (\w+)", path.read_text(), re.MULTILINE))
    return names


class Sources:
    """All functions of the crates, but for those of tests."""

    def __init__(self, top: pathlib.Path) -> None:
        """Reads those below the folder of the repository."""
        self._by_file: dict[str, Reader] = {}
        traits: dict[str, list[Clause]] = {}
        for path in sorted(top.glob("crates/*/src/**/*.rt")):
            place = path.relative_to(top)
            if not place.parts[1].endswith("_tests"):
                reader = Reader(place.parts[1], str(place), path.read_text())
                self._by_file[str(place)] = reader
                traits.update(reader.traits)
        self.all = [it for reader in self._by_file.values() for it in reader.functions]
        public = {crate: exported(top / "crates" / crate) for crate in {it.crate for it in self.all}}
        for it in self.all:
            it.is_public = it.is_public and it.name.split("::")[0] in public[it.crate]
            it.clauses = [clause for clause in it.clauses if is_of(it, clause, traits)]

    def at(self, file: str, line: int) -> list[Function]:
        """The function that a line of a file is in; of a constant, those that name it."""
        reader = self._by_file.get(file)
        if reader is None:
            return []
        inside = [it for it in reader.functions if it.first <= line <= it.last]
        constant = reader.constants.get(line, "")
        return inside or [it for it in self.all if constant and constant in it.words]

    def with_callers(self, functions: list[Function], levels: int) -> list[Function]:
        """These, and those of their crates that name them, and so on, so many times."""
        found, latest = list(functions), list(functions)
        for _level in range(levels):
            names, crates = {it.own_name for it in latest}, {it.crate for it in latest}
            latest = [it for it in self.all if it.crate in crates and names & it.words and it not in found]
            found += latest
        return found


def is_of(it: Function, clause: Clause, traits: dict[str, list[Clause]]) -> bool:
    """Whether a clause is one of the function: what an impl gives to its trait is of those functions alone whose
    contract in the trait names it."""
    if not clause.kind.startswith("ghost "):
        return True
    contract = traits.get(f"{clause.kind.split()[1]}::{it.own_name}")
    return contract is None or any(clause.name in declared.words for declared in contract)
