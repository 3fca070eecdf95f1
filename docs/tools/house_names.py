"""Names with two meanings, for docs/tools/house: definitions, types and modules; and numbers with several names."""
from __future__ import annotations

import pathlib
import re
from collections import defaultdict
from collections.abc import Iterable, Iterator, Mapping

from promise_reach import names_of
from promise_types import Types
from trace_specs import Specs

TESTS = "_tests"
IS_PUBLIC = re.compile(r"(?:\w+ )*pub\b|mutual|infix")
CONSTANT = re.compile(r" *(?:pub(?:\([\w ]+\))? )?(?:const|static) (\w+): \w+ = ([^;]*);")
VALUE = re.compile(r"([\w'-]+) = (\d[\w ^*+-]*)$")
NUMBER = re.compile(r"(?<![\w.])(?:0x[0-9a-f_]+|\d[\d_]*)(?![\w.])")
# The limits whose number stands once in the sources, as this constant, and once in the definitions, under this name.
# All other places use these names. A number that is the same only by chance is not here.
ONE_NAME: Mapping[int, tuple[str, str]] = {
    1_432: ("PD_PAYLOAD_MAX", "pd_payload_limit"),
    65_388: ("MD_PAYLOAD_MAX", "md_payload_limit"),
    65_504: ("MD_TELEGRAM_MAX", "md_telegram_limit"),
    140_000: ("LINE_MAX", "line_limit"),
}
# Smaller numbers are the same by chance.
LEAST = 5
# So many places are listed, and more are counted.
FEW = 12


def shared(named: Iterable[tuple[str, str, str]]) -> dict[str, list[str]]:
    """The places of each name that is in two crates or more, of names with their crates and places."""
    crates: dict[str, set[str]] = defaultdict(set)
    places: dict[str, list[str]] = defaultdict(list)
    for name, crate, place in named:
        crates[name].add(crate)
        places[name].append(place)
    return {name: places[name] for name in sorted(places) if len(crates[name]) > 1}


def definitions(specs: Specs) -> dict[str, list[str]]:
    """The public definitions, and the forms of their values, that have one name in two crates."""
    return shared((name, it.id.crate, f"{it.id.file}:{it.line}") for it in specs.all.values()
                  if not it.id.crate.endswith(TESTS) and IS_PUBLIC.match(it.text) for name in sorted(names_of(it)))


def types(known: Types) -> dict[str, list[str]]:
    """The types and traits that two crates declare under one name."""
    return shared((name, crate, f"crates/{crate}/src/{path}.rt:{item.line}")
                  for (crate, path), source in known.sources.items() if not crate.endswith(TESTS)
                  for name, item in source.items.items() if item.kind in ("struct", "enum", "trait"))


def modules(known: Types) -> dict[str, list[str]]:
    """The source modules of a crate whose names differ only by an s at the end."""
    found: dict[str, list[str]] = {}
    for crate, path in known.sources:
        name = path.split("/")[-1]
        others = [it for owner, it in known.sources if owner == crate and it.split("/")[-1] == name + "s"]
        if others:
            found[f"{crate}: {name}"] = [f"crates/{crate}/src/{it}.rt" for it in (path, *others)]
    return found


def number_of(text: str) -> int | None:
    """The number that a constant's value is, if it is written as one."""
    plain = text.replace("_", "").replace(" ", "")
    if power := re.fullmatch(r"2\^(\d+)(-1)?", plain):
        return int(2 ** int(power[1])) - bool(power[2])
    return int(plain, 0) if re.fullmatch(r"0x[0-9a-f]+|0o[0-7]+|0|[1-9]\d*", plain) else None


def numbers_in(path: pathlib.Path) -> Iterator[tuple[int, str, int]]:
    """The numbers that a file names, and those that it has without a name: each with its name, and its line."""
    pattern, remark = (CONSTANT, "//") if path.suffix == ".rt" else (VALUE, "--")
    for at, line in enumerate(path.read_text().splitlines(), 1):
        found = pattern.match(line)
        if found and (number := number_of(found[2])) is not None:
            yield number, found[1], at
        elif not found:
            for bare in NUMBER.findall(re.sub(r'"(?:[^"\\]|\\.)*"', "", line.split(remark)[0])):
                if (number := number_of(bare)) is not None:
                    yield number, "", at


def numbers(top: pathlib.Path) -> Iterator[tuple[int, str, str, str]]:
    """The numbers of the sources and of the definitions: each with its name, the kind of its file, and its place."""
    for folder in ("src/**/*.rt", "specs/**/*.antt"):
        for path in sorted(top.glob(f"crates/*/{folder}")):
            place = path.relative_to(top)
            for number, name, line in numbers_in(path) if not place.parts[1].endswith(TESTS) else ():
                yield number, name, path.suffix, f"{place}:{line}"


def limits(top: pathlib.Path) -> list[str]:
    """The places that have the number of a limit, other than its constant and its definition."""
    found: list[str] = []
    holders: set[tuple[int, str, str]] = set()
    for number, name, kind, place in numbers(top):
        if number not in ONE_NAME:
            continue
        holder = ONE_NAME[number][kind == ".antt"]
        if name != holder or (number, name, kind) in holders:
            found.append(f"{place}: {name or 'no name'}: {number:,} is {holder}")
        holders.add((number, name, kind))
    return found


def constants(top: pathlib.Path) -> dict[str, list[str]]:
    """The numbers that several constants of the sources, or several definitions, are; and where they have no name."""
    named: dict[int, dict[str, list[str]]] = defaultdict(lambda: defaultdict(list))
    bare: dict[int, list[str]] = defaultdict(list)
    for number, name, kind, place in numbers(top):
        if name:
            named[number][kind].append(f"{place}: {name}")
        else:
            bare[number].append(place)
    several = {it: by_kind for it, by_kind in sorted(named.items())
               if it >= LEAST and any(len(places) > 1 for places in by_kind.values())}
    return {f"{number:,}": [*(place for places in by_kind.values() for place in places), *without_name(bare[number])]
            for number, by_kind in several.items()}


def without_name(places: list[str]) -> list[str]:
    """Where a number has no name, or in how many places, if they are many."""
    return [f"{len(places)} places without a name"] if len(places) > FEW else [f"{it}: no name" for it in places]
