"""The types, traits and constants that the sources declare, for docs/tools/promise: the text of each, and what it
names of others."""
from __future__ import annotations

import dataclasses
import pathlib
import re

from trace_specs import WORD, Id, imports

VISIBLE = r"(?:pub(?:\([\w ]+\))? )?"
ITEM = re.compile(VISIBLE + r"(struct|enum|trait|const|static) (\w+)")
MODEL = re.compile(r"impl\b.*?\bModel for (\w+)")
USE = re.compile(r"^ *" + VISIBLE + r"use ((?:crate|super|trdp_\w+)(?:::\w+)*)::(\{[^}]*\}|\w+);", re.MULTILINE)
# The parts of a path in `declared` that name no item.
PARTS = (".TheVariants", ".TheOpen", ".TheConstants")


@dataclasses.dataclass
class Item:
    """An item of a source file: its kind, its name, its lines with their remarks, what it names of definitions, and
    which other words it has."""

    kind: str
    name: str
    line: int
    text: list[str]
    named: set[Id]
    words: set[str]


@dataclasses.dataclass
class Source:
    """A source file: its crate, its path below the crate's `src`, what its first line says, what its `use` lines take
    from where, its items, and the models of its types."""

    crate: str
    path: str
    says: str
    taken: dict[str, tuple[str, str]]
    items: dict[str, Item] = dataclasses.field(default_factory=dict)
    models: dict[str, Item] = dataclasses.field(default_factory=dict)


def plain(line: str) -> str:
    """A line without its remark."""
    return re.sub(r"//.*", "", line).rstrip()


def remark_above(lines: list[str], index: int) -> list[str]:
    """The remarks directly above a line, without attributes."""
    first = index
    while first and lines[first - 1].lstrip().startswith(("///", "#[")):
        first -= 1
    return [line for line in lines[first:index] if line.lstrip().startswith("///")]


def without_uses(lines: list[str]) -> list[str]:
    """These lines without the imports of definitions, and without the empty lines that follow them."""
    found: list[str] = []
    is_use = False
    for line in lines:
        is_use = "ghost use " in line or is_use and not line
        found += [] if is_use else [line]
    return found


def last_of(lines: list[str], index: int) -> int:
    """The last line of the item that begins at a line at the margin."""
    for at in range(index, len(lines)):
        line = plain(lines[at])
        if line == "}" or line.endswith(";") and not line.startswith(" ") or at == index and line.endswith("}"):
            return at
    return len(lines) - 1


def uses(text: str) -> dict[str, tuple[str, str]]:
    """What the `use` lines of a file take: by its name here, the crate or module that it comes from, and its name
    there."""
    found: dict[str, tuple[str, str]] = {}
    for path, names in USE.findall(text):
        for item in names.strip("{}").split(","):
            name, _, renamed = item.strip().partition(" as ")
            found[renamed or name] = (path, name)
    return found


def read(crate: str, path: str, text: str) -> Source:
    """Reads a source file."""
    lines = text.splitlines()
    says = " ".join(line[4:] for line in lines[:first_empty(lines)])
    source = Source(crate, path, says, uses(text))
    for index, line in enumerate(lines):
        model, item = MODEL.match(line), ITEM.match(line)
        if not model and not item:
            continue
        last = last_of(lines, index)
        code = "\n".join(map(plain, lines[index:last + 1]))
        taken = imports(text) | imports(code)
        words = set(WORD.findall("\n".join(it for it in code.splitlines() if "ghost use " not in it)))
        if model:
            value = re.search(r"ghost Value = \{(.*?)\}", code, re.DOTALL)
            shown = [f"struct {model[1]} {{ .. }}  // in definitions: {' '.join(value[1].split())}"] if value else []
            words = set(WORD.findall(value[1])) if value else set()
            named = {taken[word] for word in words if word in taken}
            source.models[model[1]] = Item("model", model[1], index + 1, shown, named, words)
        elif item:
            named = {taken[word] for word in words if word in taken}
            shown = [*remark_above(lines, index), *without_uses(lines[index:last + 1])]
            source.items[item[2]] = Item(item[1], item[2], index + 1, shown, named, words - {item[2]})
    for name, model_item in source.models.items():
        if name in source.items:
            model_item.text = [*(it for it in source.items[name].text if it.startswith("///")), *model_item.text]
    return source


def first_empty(lines: list[str]) -> int:
    """The number of lines of a file before the first paragraph of its first remark ends."""
    return next((at for at, line in enumerate(lines) if not line.startswith("//! ")), len(lines))


class Types:
    """The items of all source files."""

    def __init__(self, top: pathlib.Path) -> None:
        """Reads those below the folder of the repository."""
        self.sources: dict[tuple[str, str], Source] = {}
        self._places: dict[tuple[str, str], list[str]] = {}
        for path in sorted(top.glob("crates/*/src/**/*.rt")):
            crate = path.relative_to(top).parts[1]
            place = str(path.relative_to(top / "crates" / crate / "src").with_suffix(""))
            source = read(crate, place, path.read_text())
            self.sources[crate, place] = source
            for name in source.items:
                self._places.setdefault((crate, name), []).append(place)

    def declared(self, it: Id) -> Id | None:
        """The item that a path in `declared` is of; none if the sources have none."""
        module = it.module.removeprefix("specs.declared.")
        for part in PARTS:
            module = module.removesuffix(part)
        path, _, name = module.rpartition(".")
        place, name = (path or "lib", name) if name[0].isupper() else (module, it.name)
        source = self.sources.get((it.crate, place.replace(".", "/")))
        return Id(it.crate, f"src/{source.path}", name) if source and name in source.items else None

    def item(self, it: Id) -> Item:
        """The item of such a path, or the model of a type."""
        source = self.sources[it.crate, it.module.removeprefix("src/")]
        return source.models[it.name.removesuffix("!")] if it.name.endswith("!") else source.items[it.name]

    def used(self, crate: str, place: str, words: set[str]) -> set[Id]:
        """What these words of a source file name of items. A type with a model is named by that."""
        source = self.sources[crate, place]
        found: set[Id] = set()
        for word in words:
            path, name = source.taken.get(word, ("", ""))
            if word in source.items:
                found.add(self._seen(crate, place, word))
            elif path:
                owner = crate if path.startswith(("crate", "super")) else path.split("::")[0]
                tail = path.split("::")[1:]
                places = self._places.get((owner, name), [])
                here = [it for it in places if it == "/".join(tail)] or places
                if len(here) == 1:
                    found.add(self._seen(owner, here[0], name))
        return found

    def _seen(self, crate: str, place: str, name: str) -> Id:
        """A type as other code sees it: its model, if it has one."""
        return Id(crate, f"src/{place}", name + "!" if name in self.sources[crate, place].models else name)
