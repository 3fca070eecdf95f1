"""The text of the pages that docs/tools/promise writes: definitions in the order in which they depend on each other, by
crate and module."""
from __future__ import annotations

import dataclasses
import functools
import pathlib
import re
from collections.abc import Callable, Collection, Iterable, Iterator
from typing import TypeVar

from kit_words import BESIDE, WORDS
from promise_reach import OURS, Contract, Reach
from promise_types import first_empty
from trace_links import link, wrapped
from trace_specs import Id

File = tuple[str, str]
Any = TypeVar("Any")


@dataclasses.dataclass(frozen=True)
class Page:
    """A page: its file, its title, its first paragraphs, and the functions whose contracts it is about, each by its
    crate, its source file and its name. It leaves out what the page `after` has."""

    file: str
    title: str
    head: str
    contracts: tuple[tuple[str, str, str], ...]
    after: str = ""


@dataclasses.dataclass
class Built:
    """What a page has: its contracts, its definitions and types, and how many lines these have."""

    page: Page
    contracts: list[Contract]
    ids: set[Id]
    kit: set[str]
    lines: int
    type_lines: int
    modules: int

    @property
    def definitions(self) -> int:
        """How many definitions it has."""
        return sum(not is_type(it) for it in self.ids)


def is_type(it: Id) -> bool:
    """Whether this is a type of the sources, and no definition."""
    return it.module.startswith("src/")


def code_lines(lines: Iterable[str]) -> int:
    """How many of these lines are neither empty nor remarks."""
    return sum(bool(line.strip()) and not line.lstrip().startswith(("--", "//")) for line in lines)


def shown(reach: Reach, it: Id) -> list[str]:
    """The lines of a definition or a type, with its remarks."""
    if is_type(it):
        return reach.types.item(it).text
    found = reach.specs.all[it]
    return file_lines(reach.top / it.file)[found.first - 1:found.last]


@functools.cache
def file_lines(path: pathlib.Path) -> list[str]:
    """The lines of a file."""
    return path.read_text().splitlines()


def measured(reach: Reach, ids: Iterable[Id]) -> tuple[int, int, int]:
    """How many lines definitions have, how many lines types, and in how many modules the definitions are."""
    found = sorted(ids)
    lines = sum(code_lines(shown(reach, it)) for it in found if not is_type(it))
    type_lines = sum(code_lines(shown(reach, it)) for it in found if is_type(it))
    return lines, type_lines, len({(it.crate, it.module) for it in found if not is_type(it)})


def build(reach: Reach, page: Page, without: Collection[Id]) -> Built:
    """What a page has, without this. Raises KeyError if a contract is not there."""
    contracts = [reach.contract(*it) for it in page.contracts]
    found = reach.reached(it for contract in contracts for it in contract.named)
    kit = {it.name for it in found if not it.crate.startswith(OURS)}
    ids = {it for it in found if it.crate.startswith(OURS)} - set(without) - reach.lost
    return Built(page, contracts, ids, kit, *measured(reach, ids))


def file_of(it: Id) -> File:
    """The crate and the file of a definition or type."""
    return it.crate, f"{it.module}.rt" if is_type(it) else f"{it.module.replace('.', '/')}.antt"


def ranks(top: pathlib.Path) -> Callable[[File], tuple[int, int, str]]:
    """The order in which files are looked at: crates as in crates.txt, and of each crate first its types, and then its
    modules of definitions, as its Lib.antt lists them."""
    crates = [line.split(":")[0] for line in (top / "crates.txt").read_text().splitlines() if ":" in line]

    @functools.cache
    def listed(crate: str) -> list[str]:
        path = top / "crates" / crate / "specs" / "Lib.antt"
        return re.findall(r"^pub mod (\w+)", path.read_text(), re.MULTILINE) if path.exists() else []

    def rank(file: File) -> tuple[int, int, str]:
        crate, path = file
        name, names = pathlib.PurePath(path).stem, listed(crate)
        place = names.index(name) + 1 if name in names else len(names) + 1
        return crates.index(crate), place if path.endswith(".antt") else 0, path

    return rank


def sorted_by_need(items: Iterable[Any], needs: Callable[[Any], Iterable[Any]]) -> list[Any]:
    """These items in their order, but each after what it needs of them. Where they need each other, the first that is
    met comes last."""
    found: dict[Any, None] = {}
    left = list(items)
    known, met = set(left), set[Any]()

    def visit(it: Any) -> None:
        if it in met or it not in known:
            return
        met.add(it)
        for needed in needs(it):
            visit(needed)
        found[it] = None

    for it in left:
        visit(it)
    return list(found)


def ordered(reach: Reach, ids: set[Id]) -> list[tuple[File, list[Id]]]:
    """The definitions and types by file, each after what it uses, as far as that can be while files stay together."""
    rank = ranks(reach.top)
    by_file: dict[File, list[Id]] = {}
    for it in sorted(ids, key=lambda it: line_of(reach, it)):
        by_file.setdefault(file_of(it), []).append(it)

    def files_below(file: File) -> list[File]:
        used = {file_of(one) for it in by_file[file] for one in reach.named(it) & ids}
        return sorted((it for it in used if it[0] == file[0] and it != file), key=rank)

    def below(it: Id) -> list[Id]:
        return sorted((one for one in reach.named(it) & ids if file_of(one) == file_of(it)),
                      key=lambda one: line_of(reach, one))

    return [(file, sorted_by_need(by_file[file], below))
            for file in sorted_by_need(sorted(by_file, key=rank), files_below)]


def line_of(reach: Reach, it: Id) -> int:
    """The line at which a definition or a type begins."""
    return reach.types.item(it).line if is_type(it) else reach.specs.all[it].line


def block(language: str, lines: Iterable[str]) -> str:
    """A block of code."""
    return "\n".join([f"```{language}", *lines, "```"])


def spaced(parts: Iterable[list[str]]) -> Iterator[str]:
    """The lines of all parts, with an empty line between two."""
    for number, part in enumerate(parts):
        yield from ["", *part] if number else part


def says(reach: Reach, file: File) -> str:
    """What the first remark of a file says."""
    lines = file_lines(reach.top / "crates" / file[0] / file[1])
    if file[1].endswith(".rt"):
        return " ".join(line[4:] for line in lines[:first_empty(lines)])
    end = next((at for at, line in enumerate(lines) if not line.startswith("-- ")), len(lines))
    return " ".join(line[3:] for line in lines[:end])


def section(reach: Reach, file: File, ids: list[Id]) -> Iterator[str]:
    """The paragraphs of a file."""
    crate, path = file
    name = pathlib.PurePath(path)
    is_source = path.endswith(".rt")
    yield f"### {'Types of ' + name.name if is_source else name.stem}"
    yield wrapped(f"{says(reach, file)} ({link(path, f'crates/{crate}/{path}')})")
    yield block("rust" if is_source else "text", spaced(shown(reach, it) for it in ids))


def glossary(words: Iterable[str]) -> str:
    """A table of the kit's words."""
    rows = (f"| {code(WORDS[it][0])} | {WORDS[it][1]} |" for it in words)
    return "\n".join(["| Written | Meaning |", "|---|---|", *rows])


def code(text: str) -> str:
    """Code in a cell of a table."""
    return f"`{text}`".replace("|", "\\|")


def contents(reach: Reach, files: list[tuple[File, list[Id]]]) -> str:
    """A table of the crates of a page, with how many lines of definitions each has there."""
    rows = []
    for crate in dict.fromkeys(file[0] for file, _ in files):
        lines, type_lines, _ = measured(reach, (it for file, ids in files if file[0] == crate for it in ids))
        what = says(reach, (crate, "src/lib.rt"))
        rows.append(f"| [`{crate}`](#{crate}) | {what} | {lines} | {type_lines or '-'} |")
    return "\n".join(["| Crate | What it has | Lines of definitions | of types |", "|---|---|---|---|", *rows])


def text_of(reach: Reach, built: Built, known: Collection[str]) -> str:
    """The text of a page. The kit's words that are known are not explained again."""
    page, files = built.page, ordered(reach, built.ids)
    words = [it for it in WORDS if it in {BESIDE.get(word, word) for word in built.kit - set(known)}]
    head = page.head.format(lines=f"{built.lines:,}", modules=built.modules, types=f"{built.type_lines:,}")
    parts = [f"# {page.title}", *(it if it.startswith(("#", "|", "```")) else wrapped(it)
                                  for it in head.strip().split("\n\n"))]
    if words:
        parts += ["## Words of the kit", "Most of these come from the kit's library, and mean the same everywhere.",
                  glossary(words)]
    parts += ["## Contents", contents(reach, files)]
    crate = ""
    for file, ids in files:
        if file[0] != crate:
            crate = file[0]
            parts += [f"## {crate}", wrapped(says(reach, (crate, "src/lib.rt")))]
        parts += section(reach, file, ids)
    parts.append("## The contracts")
    for contract in built.contracts:
        place = link(f"`{contract.name}`", contract.file)
        parts += [f"{place} of `{contract.crate}`:", block("rust", contract.text)]
    return "\n\n".join(parts) + "\n"


def unknown_words(pages: Iterable[Built]) -> Iterator[str]:
    """What is wrong with the table of the kit's words."""
    used = {word for built in pages for word in built.kit}
    known = {*WORDS, *BESIDE}
    if used - known:
        yield f"docs/tools/kit_words.py: it does not explain {', '.join(sorted(used - known))}"
    if known - used:
        yield f"docs/tools/kit_words.py: no page uses {', '.join(sorted(known - used))}"
