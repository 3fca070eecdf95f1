#!/usr/bin/env python3
"""Writes the datasets of a configuration for programs: as structs of C with their constants for trdp_slot.h, or as
dataclasses of Python for trdp_slot.

    trdp_structs.py node.toml > node_structs.h
    trdp_structs.py --python node.toml > node_values.py

The names are those of the configuration. A dataset without a name is dataset_5002, by its number, and an element
without one element_2, by its position from 0. A name that can't be an identifier is changed, and a comment says so.
"""
from __future__ import annotations

import functools
import os
import re
import sys
from collections.abc import Mapping, Sequence
from typing import NamedTuple

import trdp_words
from trdp_slot import MD_MOST, Datasets, Element, is_count
from trdp_slot._spelling import Spelling, spellings

NAME = trdp_words.name_of("trdp_structs.py")
ROOM = 64
"""How many items an array with a count has room for, if --room doesn't say."""


C_TYPES = {
    "BOOL8": "uint8_t", "BITSET8": "uint8_t", "ANTIVALENT8": "uint8_t", "CHAR8": "char", "UTF16": "uint16_t",
    "INT8": "int8_t", "INT16": "int16_t", "INT32": "int32_t", "INT64": "int64_t",
    "UINT8": "uint8_t", "UINT16": "uint16_t", "UINT32": "uint32_t", "UINT64": "uint64_t",
    "REAL32": "float", "REAL64": "double", "TIMEDATE32": "uint32_t",
    "TIMEDATE48": "struct trdp_slot_timedate48", "TIMEDATE64": "struct trdp_slot_timedate64",
}
"""The type of a member for a value of a basic type."""


class Language(NamedTuple):
    """What a language takes from the names, besides its keywords."""

    dataset_words: frozenset[str]
    """What no dataset is called."""
    element_words: frozenset[str]
    """What no element is called."""
    hides: bool
    """Whether an element hides the dataset that has its name, from itself and the elements after it."""


class CWords(frozenset[str]):
    """Words of C's headers: these; all that begin with trdp_slot, in any case; and all that end in _t, as types do."""

    def __contains__(self, word: object) -> bool:
        is_of_a_rule = isinstance(word, str) and (word.lower().startswith("trdp_slot") or word.endswith("_t"))
        return is_of_a_rule or super().__contains__(word)


C_STRUCTS = """
    cmsghdr f_owner_ex fd_mask fd_set file_handle flock flock64 group_filter group_req group_source_req in6_addr
    in6_pktinfo in_addr in_pktinfo iovec ip6_mtuinfo ip_mreq ip_mreq_source ip_mreqn ip_msfilter ip_opts ipv6_mreq
    itimerspec linger mmsghdr msghdr osockaddr pollfd sockaddr sockaddr_in sockaddr_in6 sockaddr_storage sockaddr_un
    stat stat64 timespec timeval timex tm u_char u_int u_long u_short ucred uint ulong ushort
"""
C = Language(CWords(C_STRUCTS.split()), frozenset(it for it in C_TYPES.values() if it.endswith("_t")), hides=False)
"""A dataset can't have the name of a struct in the headers that its own header includes, nor in C++ that of a type. In
C++ an element can't have the name of a type that the struct uses."""

PYTHON_WORDS = frozenset("Any ClassVar Mapping TimeDate48 TimeDate64 dataclass field list str".split())
VARIABLES = frozenset(("trdp_classes", "trdp_dataset", "trdp_elements"))
PYTHON = Language(PYTHON_WORDS | {"range"}, PYTHON_WORDS | VARIABLES, hides=True)
"""The dataclasses use these words themselves."""


class Member(NamedTuple):
    """An element, as a member of a struct or a field of a dataclass."""

    name: Spelling
    element: Element
    key: str | int
    """Its name in the configuration, or its position from 0."""
    is_count: bool


class Struct(NamedTuple):
    """A dataset, as a struct or a dataclass."""

    name: Spelling
    number: int
    members: Sequence[Member]

    def changes(self) -> list[str]:
        """A sentence for each name that is changed."""
        return [str(it) for it in (self.name, *(member.name for member in self.members)) if it.is_changed]


Structs = Mapping[int, Struct]  # by the numbers of the datasets, each one after those that it contains


def structs_of(datasets: Datasets, language: Language) -> Structs:
    """The datasets with the identifiers that they and their elements have in a language."""
    names = (datasets.dataset_names.get(it, f"dataset_{it}") for it in datasets.elements)
    named = dict(zip(datasets.elements, spellings(names, language.dataset_words)))
    found: dict[int, Struct] = {}
    for number in inner_first(datasets):
        elements = datasets.elements[number]
        inner = {named[it.type].identifier for it in elements if isinstance(it.type, int)} if language.hides else set()
        found[number] = Struct(named[number], number, members_of(elements, language.element_words | inner))
    return found


def members_of(elements: Sequence[Element], reserved: frozenset[str]) -> list[Member]:
    """The elements of a dataset as members."""
    keys: list[str | int] = [index if it.name is None else it.name for index, it in enumerate(elements)]
    names = spellings((f"element_{it}" if isinstance(it, int) else it for it in keys), reserved)
    return [Member(name, element, key, is_count(elements, index))
            for index, (name, element, key) in enumerate(zip(names, elements, keys))]


def inner_first(datasets: Datasets) -> list[int]:
    """The numbers of the datasets in the configuration's order, but each one after those that it contains."""
    found: dict[int, None] = {}

    def add(number: int) -> None:
        for element in datasets.elements[number]:
            if isinstance(element.type, int) and element.type not in found:
                add(element.type)
        found[number] = None

    for number in datasets.elements:
        add(number)
    return list(found)


def kind_of(element: Element) -> str:
    """The name of a basic type, as programs see the element."""
    return element.as_ or str(element.type)


def remark_of(element: Element) -> str:
    """What the raw number of an element means, if the configuration says it."""
    scale = "" if element.scale == 1 else f" * {element.scale:.15g}"
    offset = "" if element.offset == 0 else f" {'+' if element.offset > 0 else '-'} {abs(element.offset):.15g}"
    shown = f"raw{scale}{offset}" if scale or offset else ""
    coded = "1 is false, 2 is true" if element.as_ == "ANTIVALENT8" else ""
    return ": ".join(filter(None, (trdp_words.printable(element.unit), shown or coded)))


C_NUMBERS = {"BITSET8": "BOOL8", "ANTIVALENT8": "BOOL8"}
"""The types whose constants are those of another type."""


def c_header(structs: Structs, file: str, room: int) -> str:
    """The header for the datasets of a file, whose arrays with a count have that room."""
    name = os.path.basename(file)
    guard = f"TRDP_STRUCTS_{re.sub('[^A-Za-z0-9]', '_', name).upper()}_H"
    parts = [c_comment(f"The datasets of {trdp_words.printable(name)}, for trdp_slot.h. Written by trdp-structs.")
             + f"\n#ifndef {guard}\n#define {guard}\n\n#include \"trdp_slot.h\"\n"]
    parts += [c_struct(structs, it, room) for it in structs.values()]
    return "\n".join([*parts, "#endif\n"])


def c_comment(text: str) -> str:
    """A comment of one line, in which no text begins or ends a comment."""
    return f"/* {text.replace('*/', '* /').replace('/*', '/ *')} */"


def c_struct(structs: Structs, struct: Struct, room: int) -> str:
    """A struct and its constants."""
    name = struct.name.identifier
    lines = [c_comment(it) for it in (f"Dataset {struct.number}.", *struct.changes())]
    lines += [f"struct {name} {{", *(c_member(structs, it, room) for it in struct.members), "};", ""]
    constants = ",\n    ".join(c_constant(structs, struct, it) for it in struct.members)
    lines += [f"static const uint32_t {name}_number = {struct.number};",
              f"static const struct trdp_slot_element {name}_elements[] = {{\n    {constants} }};",
              f"static const struct trdp_slot_dataset {name}_dataset =\n"
              f"    TRDP_SLOT_DATASET(struct {name}, {name}_elements);"]
    return "\n".join([*lines, ""])


def c_member(structs: Structs, member: Member, room: int) -> str:
    """The declaration of a member."""
    kind, size = member.element.type, member.element.size
    declared = f"struct {structs[kind].name.identifier}" if isinstance(kind, int) else C_TYPES[kind_of(member.element)]
    array = "" if size == 1 else f"[{size or room}]"
    remark = remark_of(member.element)
    return f"    {declared} {member.name.identifier}{array};{' ' + c_comment(remark) if remark else ''}"


def c_constant(structs: Structs, struct: Struct, member: Member) -> str:
    """The entry of an element in the table of its dataset."""
    kind, size = member.element.type, member.element.size
    form = "ONE" if size == 1 else "ARRAY" if size else "COUNTED"
    place = f"struct {struct.name.identifier}, {member.name.identifier}"
    if isinstance(kind, int):
        return f"TRDP_SLOT_NESTED_{form}({place}, &{structs[kind].name.identifier}_dataset)"
    basic = kind_of(member.element)
    return f"TRDP_SLOT_{form}({place}, TRDP_SLOT_{C_NUMBERS.get(basic, basic)})"


PYTHON_TYPES = {
    "BOOL8": ("bool | int", "False"), "ANTIVALENT8": ("bool | int", "0"),
    "REAL32": ("float", "0.0"), "REAL64": ("float", "0.0"),
    "TIMEDATE48": ("TimeDate48", "TimeDate48(0, 0)"), "TIMEDATE64": ("TimeDate64", "TimeDate64(0, 0)"),
}
"""The type of a field for a value of a basic type, and its zero value. Others are an int."""

TEXTS = ("CHAR8", "UTF16")
"""The types whose arrays are texts."""


def python_module(structs: Structs, file: str) -> str:
    """The module with a dataclass for each dataset of a file."""
    classes = [python_class(structs, it) for it in structs.values()]
    written = "".join(classes)
    times = [it for it in ("TimeDate48", "TimeDate64") if f"{it}(" in written]
    name = trdp_words.printable(os.path.basename(file))
    lines = [f"# The datasets of {name} as dataclasses, for trdp_slot. Written by trdp-structs.",
             "from __future__ import annotations", "", "from collections.abc import Mapping",
             f"from dataclasses import dataclass{', field' if 'field(' in written else ''}",
             "from typing import Any, ClassVar"]
    if times:
        lines += ["", f"from trdp_slot import {', '.join(times)}"]
    return "\n\n\n".join(["\n".join(lines), *classes]) + "\n"


def python_class(structs: Structs, struct: Struct) -> str:
    """A dataclass. A count has no field: it is the length of its array."""
    members = [it for it in struct.members if not it.is_count]
    elements = {it.name.identifier: repr(it.key) for it in members}
    classes = {it.name.identifier: structs[it.element.type].name.identifier
               for it in members if isinstance(it.element.type, int)}
    lines = [*(f"# {it}" for it in struct.changes()),
             "@dataclass", f"class {struct.name.identifier}:", f'    """Dataset {struct.number}."""', "",
             f"    trdp_dataset: ClassVar[int] = {struct.number}",
             f"    trdp_elements: ClassVar[Mapping[str, str | int]] = {python_table(elements)}",
             f"    trdp_classes: ClassVar[Mapping[str, Any]] = {python_table(classes)}", ""]
    return "\n".join([*lines, *(python_field(structs, it) for it in members)])


def python_table(entries: Mapping[str, str]) -> str:
    """A dict within a class, with a line for each entry."""
    lines = "".join(f"        {key!r}: {value},\n" for key, value in entries.items())
    return f"{{\n{lines}    }}" if lines else "{}"


def python_field(structs: Structs, member: Member) -> str:
    """A field, whose default is the zero value of its element."""
    kind, size = member.element.type, member.element.size
    if isinstance(kind, int):
        type_, zeros = python_nested(structs[kind].name.identifier, size)
    else:
        type_, zeros = python_basic(kind_of(member.element), size)
    remark = remark_of(member.element)
    return f"    {member.name.identifier}: {type_} = {zeros}{'  # ' + remark if remark else ''}"


def python_nested(inner: str, size: int) -> tuple[str, str]:
    """The type and the zero value of a field that contains another dataset."""
    if size == 1:
        return inner, f"field(default_factory={inner})"
    return f"list[{inner}]", made(f"[{inner}() for _ in range({size})]", size)


def python_basic(kind: str, size: int) -> tuple[str, str]:
    """The type and the zero value of a field of a basic type."""
    type_, zero = PYTHON_TYPES.get(kind, ("int", "0"))
    if size == 1:
        return type_, zero
    if kind in TEXTS:
        return "str | list[int]", '""'
    return f"list[{type_}]", made(f"[{zero}] * {size}", size)


def made(items: str, size: int) -> str:
    """A list that each instance has for itself."""
    return f"field(default_factory={f'lambda: {items}' if size else 'list'})"


@functools.cache
def parser() -> trdp_words.Words:
    """All words of the command line."""
    words = trdp_words.Words(
        prog=NAME, usage="%(prog)s [--room N | --python] FILE", allow_abbrev=False,
        description="Writes the datasets of a configuration as structs of C with their constants for trdp_slot.h, or "
                    "as dataclasses of Python for trdp_slot, to standard output.")
    words.add_argument("file", metavar="FILE", help="a node's configuration, or any file with [[dataset]] tables")
    forms = words.add_mutually_exclusive_group()
    forms.add_argument("--room", metavar="N", type=trdp_words.number(1, MD_MOST), default=ROOM,
                       help=f"how many items an array with a count has room for in C: {ROOM} by default")
    forms.add_argument("--python", action="store_true", help="write dataclasses")
    return words


def main(words: list[str] | None = None) -> int:
    """Exit status 0, 1 if the file can't be read or nothing can be written, 2 for wrong words."""
    asked = parser().parse_args(words)
    try:
        datasets = trdp_words.datasets_of(asked.file)
        if not datasets.elements:
            print(f"{NAME}: {asked.file} has no [[dataset]] tables", file=sys.stderr)
        if asked.python:
            trdp_words.write_file(python_module(structs_of(datasets, PYTHON), asked.file))
        else:
            trdp_words.write_file(c_header(structs_of(datasets, C), asked.file, asked.room))
    except (OSError, ValueError) as fault:
        trdp_words.drop_output()
        print(f"{NAME}: {trdp_words.sentence(fault)}", file=sys.stderr)
        return 1
    return 0


if __name__ == "__main__":
    sys.exit(main())
