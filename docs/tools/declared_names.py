"""The names that the repository declares, for docs/tools/check_names, which looks up the words of the documents in
them."""
from __future__ import annotations

import ast
import dataclasses
import pathlib
import re
import subprocess
from collections.abc import Iterator

TOP = pathlib.Path(__file__).resolve().parents[2]
# The program's own tables: what they have between quotes are words that it reads or prints.
WORD_TABLES = (
    "trdp_dataset/src/key.rt", "trdp_dataset/src/client_key.rt", "trdp_dataset/src/element.rt", "trdp_text/src/form.rt",
    "trdp_text/src/words.rt", "trdp_text/src/names.rt", "trdp_text/src/print.rt", "trdp_text/src/print_message.rt",
    "trdp_text/src/read.rt", "trdp_text/src/read_message.rt", "trdp_text/specs/RecordText.antt",
    "trdp_text/specs/ConfigNames.antt", "trdpd/src/command.rt", "trdpd/src/main.rt",
)
VISIBLE = r"(?:pub(?:\([\w ]+\))? )?"
CLAUSES = re.compile(r"\b(?:ensures|requires)\*? (\w+) \{")
FIELDS = re.compile(r"^ +(?:pub(?:\([\w ]+\))? )?(\w+):")
GHOSTS = re.compile(r"\bghost (\w+) =")


@dataclasses.dataclass
class Declared:
    """All names, the functions that stand by themselves, the items of each type, trait, module and crate, and the
    files."""

    names: set[str] = dataclasses.field(default_factory=set)
    functions: set[str] = dataclasses.field(default_factory=set)
    items: dict[str, set[str]] = dataclasses.field(default_factory=dict)
    traits: dict[str, set[str]] = dataclasses.field(default_factory=dict)
    files: set[str] = dataclasses.field(default_factory=set)

    def add(self, owner: str, name: str) -> None:
        """Notes an item of an owner."""
        self.names.update((owner, name))
        self.items.setdefault(owner, set()).add(name)

    def has(self, owner: str, name: str) -> bool:
        """Whether the owner has that item, by itself, by a trait that it implements, or by a class that it inherits
        from."""
        owners: set[str] = set()
        found = {owner}
        while found:
            owners |= found
            found = {it for one in found for it in self.traits.get(one, set())} - owners
        return any(name in self.items.get(it, set()) for it in owners)


def tracked() -> list[str]:
    """The files of the repository, those that aren't committed yet among them."""
    words = ["git", "ls-files", "--cached", "--others", "--exclude-standard"]
    listed = subprocess.run(words, cwd=TOP, capture_output=True, text=True, check=True)
    return [path for path in listed.stdout.splitlines() if (TOP / path).exists()]


def crate_lines() -> dict[str, list[str]]:
    """Each crate with those that it stands on, in the order of crates.txt."""
    lines = [line.split(":") for line in (TOP / "crates.txt").read_text().splitlines() if ":" in line]
    return {name.split()[0]: below.split() for name, below in lines}


def opened(line: str) -> tuple[str, str, str]:
    """What a line at the margin opens: its kind, the type or trait that it is of, and the trait that it implements."""
    if found := re.match(r"impl\b(?:<.*?>)? (?:([\w:]+)(?:<.*?>)? for )?(\w+)", line):
        return "impl", found[2], (found[1] or "").split("::")[-1]
    if found := re.match(VISIBLE + r"(enum|struct|trait) (\w+)", line):
        return found[1], found[2], ""
    return "", "", ""


def member(kind: str, line: str) -> str:
    """The item that a line in the block of a type or trait declares: a function, a constant, a variant, or a public
    field."""
    if found := re.match(rf"    {VISIBLE}(?:const )?(?:fn|const|type) (\w+)", line):
        return found[1]
    if kind == "enum" and (found := re.match(r"    ([A-Z]\w*)\b", line)):
        return found[1]
    if kind == "struct" and (found := re.match(r"    pub(?:\([\w ]+\))? (\w+):", line)):
        return found[1]
    return ""


def read_source(declared: Declared, crate: str, module: str, text: str) -> None:
    """Notes what a source file declares."""
    kind = owner = ""
    for line in text.splitlines():
        code = line.split("//")[0]
        for pattern in (CLAUSES, FIELDS, GHOSTS):
            declared.names.update(pattern.findall(code))
        if (new := opened(code))[0]:
            kind, owner, trait = new
            declared.add(module, owner)
            declared.traits.setdefault(owner, set()).update({trait} - {""})
        elif line == "}":
            kind = ""
        elif kind and (name := member(kind, code)):
            declared.add(owner, name)
        elif found := re.match(VISIBLE + r"(?:const )?(fn|const|static|type|mod) (\w+)", code):
            declared.add(module, found[2])
            if found[1] == "fn":
                declared.functions.add(found[2])
    for names in re.findall(r"^pub use [\w:]+?::(\{[^}]*\}|\w+);", text, re.MULTILINE):
        for name in re.findall(r"\w+", names):
            declared.add(crate, name)


def read_definitions(declared: Declared, module: str, text: str) -> None:
    """Notes what a file of definitions or lemmas declares, with the rules that its remarks name."""
    owner = module
    for line in text.splitlines():
        if line.startswith("-- rule:"):
            declared.names.update(line.split()[2:])
        elif found := re.match(r"(?:(?:pub|abbrev|unfoldable|record|data|syntax) )*([\w-]+)", line):
            if found[1] not in ("use", "unfolding", "module"):
                declared.add(module, found[1])
                owner = found[1]
        elif found := re.match(r"  (?:pub )?([\w-]+) :", line):
            declared.add(owner, found[1])


def read_python(declared: Declared, module: str, text: str) -> None:
    """Notes the classes, functions, arguments and attributes of a client, and which class inherits from which."""
    for node in ast.walk(ast.parse(text)):
        if isinstance(node, ast.ClassDef):
            declared.traits.setdefault(node.name, set()).update(it.id for it in node.bases if isinstance(it, ast.Name))
            for inner in ast.walk(node):
                for name in declared_by(inner):
                    declared.add(node.name, name)
        for name in declared_by(node):
            declared.add(module, name)


def declared_by(node: ast.AST) -> Iterator[str]:
    """The names that a node of a Python program declares."""
    if isinstance(node, (ast.ClassDef, ast.FunctionDef)):
        yield node.name
    elif isinstance(node, ast.arg):
        yield node.arg
    elif isinstance(node, (ast.Name, ast.Attribute)) and isinstance(node.ctx, ast.Store):
        yield node.id if isinstance(node, ast.Name) else node.attr


def read_edit(declared: Declared, path: pathlib.PurePath) -> None:
    """Notes the name of a must-fail edit."""
    declared.names.add(path.stem)


def read_file(declared: Declared, path: pathlib.PurePath) -> None:
    """Notes what a file of the repository declares."""
    crate = path.parts[1] if path.parts[0] == "crates" else ""
    text = (TOP / path).read_text(errors="replace")
    if path.suffix == ".rt":
        read_source(declared, crate, crate if path.stem in ("lib", "main") else path.stem, text)
    elif path.suffix == ".antt":
        read_definitions(declared, path.stem, text)
    elif path.suffix == ".edit":
        read_edit(declared, path)
    elif path.match("clients/python/trdp_slot/*.py"):
        read_python(declared, path.parent.name, text)
    elif path.match("clients/python/trdp_*.py"):
        read_python(declared, path.stem, text)
    elif path.suffix in (".h", ".lua"):
        declared.names.update(re.findall(r"\w+", re.sub(r"/\*.*?\*/|--[^\n]*", "", text, flags=re.DOTALL)))
    if "/".join(path.parts[1:]) in WORD_TABLES:
        declared.names.update(re.findall(r"[\w-]+", " ".join(re.findall(r'"([^"\n]*)"', text))))


def read_all() -> Declared:
    """All that the repository declares."""
    declared = Declared()
    for path in map(pathlib.PurePosixPath, tracked()):
        declared.files.update((str(path), *(str(parent) for parent in path.parents)))
        declared.names.update((path.stem, *path.parts))
        read_file(declared, path)
    for crate, below in crate_lines().items():
        for name in (crate, *below):
            declared.names.add(name)
            declared.items.setdefault(name, set())
        for source in (TOP / "crates" / crate / "src").rglob("*.rt"):
            declared.add(crate, source.stem)
    return declared
