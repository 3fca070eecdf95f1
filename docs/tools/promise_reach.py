"""What a contract reaches of definitions and types, for docs/tools/promise: names are resolved through the imports of
each file."""
from __future__ import annotations

import dataclasses
import functools
import pathlib
import re
from collections.abc import Iterable

from promise_types import Types
from trace_clauses import Function, Reader
from trace_specs import INNER, Definition, Id, Specs

IMPORT = re.compile(r"use Rattle\.(\w+)\.([\w.]+?)(?:\.\{([^}]*)\}| as ([\w'-]+))")
TOKEN = re.compile(r"(?<![\w'.◌-])[^\W\d][\w'-]*|\[\]|[^\s\w(){}.,;\"'\[\]]+")
TEXT = re.compile(r'"(?:[^"\\]|\\.)*"')
LABEL = re.compile(r"(?<=pub )[\w'-]+(?= :)|(?<=[{;] )[\w'-]+(?= = )|^ +[\w'-]+(?= = )", re.MULTILINE)
OURS = "trdp"


@dataclasses.dataclass
class Scope:
    """What a file's names mean: each token that names something, and each other name of a module."""

    names: dict[str, Id] = dataclasses.field(default_factory=dict)
    modules: dict[str, Id] = dataclasses.field(default_factory=dict)

    def add(self, name: str, meant: Id) -> None:
        """Notes a name. One with places for arguments, as if◌then◌else◌, is found by its first word."""
        self.names[next(filter(None, name.split("◌")), name)] = meant
        if name == "◌>>=◌":
            self.names["do"] = meant

    def named(self, text: str) -> set[Id]:
        """What a text names. Its remarks, its strings and the labels of its fields name nothing."""
        code = LABEL.sub("", TEXT.sub("", re.sub(r"--.*", "", text)))
        tokens = set(TOKEN.findall(code))
        found = {self.names[it] for it in tokens if it in self.names}
        return found | {module for name, module in self.modules.items() if re.search(rf"\b{name}\.[A-Z]", code)}


def scope_of(text: str, own: Iterable[tuple[str, Id]] = ()) -> Scope:
    """The scope of a text with these definitions of its own."""
    scope = Scope()
    for crate, module, names, alias in IMPORT.findall(text):
        if alias:
            scope.modules[alias] = Id(crate, module, alias)
        for item in names.split(","):
            name, _, renamed = item.strip().partition(" as ")
            if name:
                scope.add(renamed or name, Id(crate, module, name))
    for name, meant in own:
        scope.add(name, meant)
    return scope


def names_of(it: Definition) -> set[str]:
    """All names that a definition declares: its own, and those of the forms that its values have."""
    lines = it.text.splitlines()
    has_forms = re.search(r"\bdata\b|^mutual", lines[0])
    return {it.id.name, *(found[1] for line in lines[1:] if has_forms and (found := INNER.match(line)))}


@dataclasses.dataclass
class Contract:
    """A function or trait whose contract is on a page: its crate and file, its name, its text, and what it names."""

    crate: str
    file: str
    name: str
    text: list[str]
    named: set[Id]


class Reach:
    """All definitions and types, with what each names."""

    def __init__(self, top: pathlib.Path) -> None:
        """Reads those below the folder of the repository."""
        self.top = top
        self.specs = Specs(top)
        self.types = Types(top)
        self._by_module: dict[tuple[str, str], list[Definition]] = {}
        self._owners: dict[Id, Id] = {}
        for it in self.specs.all.values():
            self._by_module.setdefault((it.id.crate, it.id.module), []).append(it)
            self._owners.update({Id(it.id.crate, it.id.module, name): it.id for name in names_of(it)})
        self.lost: set[Id] = set()
        self._scope = functools.cache(self._scope_of)

    def _scope_of(self, crate: str, module: str) -> Scope:
        """The scope of a module of definitions."""
        found = self._by_module[crate, module]
        own = ((name, it.id) for it in found for name in sorted(names_of(it)))
        return scope_of((self.top / found[0].id.file).read_text(), own)

    def meant(self, it: Id) -> Id:
        """The definition or type that a name is of. Of the kit's own, the name itself."""
        if not it.crate.startswith(OURS):
            return it
        found = self.types.declared(it) if ".declared." in it.module else self._owners.get(it)
        if found is None:
            self.lost.add(it)
        return found or it

    def named(self, it: Id) -> set[Id]:
        """What a definition or type names."""
        if it.module.startswith("src/"):
            item = self.types.item(it)
            return set(map(self.meant, item.named)) | self.types.used(it.crate, it.module[4:], item.words) - {it}
        if it not in self.specs.all:
            return set()
        names = self._scope(it.crate, it.module).named(self.specs.all[it].text)
        return set(map(self.meant, names)) - {it}

    def reached(self, start: Iterable[Id]) -> set[Id]:
        """All that is reached from these, with them."""
        found: set[Id] = set()
        edge = set(start)
        while edge:
            found |= edge
            edge = {it for one in edge for it in self.named(one)} - found
        return found

    def contract(self, crate: str, file: str, name: str) -> Contract:
        """The contract of that function, with all that its signature names. Raises KeyError if there is none."""
        path = f"crates/{crate}/src/{file}.rt"
        text = (self.top / path).read_text()
        reader = Reader(crate, path, text)
        function = next((it for it in reader.functions if it.name == name), None)
        if function is None:
            raise KeyError(f"{path}: {name}")
        shown = contract_lines(text.splitlines(), function)
        code = "\n".join(line for line in shown if not line.startswith("///"))
        owner = {name.split("::")[0]} if "::" in name else set()
        signature = re.split(r"\n +(?:ensures|requires)\b", code)[0]
        words = set(re.findall(r"\w+", signature)) | owner
        named = {self.meant(it) for clause in function.clauses for it in clause.named}
        named |= {self.meant(it) for it in scope_of(text).named(code) if not it.crate.startswith(OURS)}
        return Contract(crate, path, name, shown, named | self.types.used(crate, file, words))


def contract_lines(lines: list[str], function: Function) -> list[str]:
    """The lines of a function up to its body, with the remarks above it, at the margin."""
    first = function.first - 1
    while lines[first - 1].lstrip().startswith(("///", "#[")):
        first -= 1
    indent = re.match(" *", lines[function.first - 1])
    margin = indent[0] if indent else ""
    found = []
    for line in lines[first:function.last]:
        if line in (margin + "{", margin + "{}"):
            break
        if not line.lstrip().startswith("#["):
            found.append(line.removeprefix(margin))
    return found
