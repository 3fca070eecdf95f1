"""What a program needs of the system's libraries, according to its ELF file."""
from __future__ import annotations

import struct
from typing import NamedTuple

# The first bytes of an ELF file of 64 bits, lowest byte first.
MAGIC = b"\x7fELF\x02\x01\x01"
X86_64 = 62
# Kinds of sections.
DYNAMIC, VERSION_NEEDS = 6, 0x6FFFFFFE
# Of the dynamic section: what ends it, and a library that is needed.
END, NEEDED = 0, 1


class NoProgram(Exception):
    """The file is no program for Linux on x86-64."""


class Section(NamedTuple):
    """A section of an ELF file: its kind, its bytes, which section has its names, and the count of its parts."""

    kind: int
    content: bytes
    names: int
    parts: int


def sections_of(image: bytes) -> list[Section]:
    """The sections of an ELF file."""
    if not image.startswith(MAGIC) or struct.unpack_from("<H", image, 18)[0] != X86_64:
        raise NoProgram
    start, = struct.unpack_from("<Q", image, 40)
    size, count = struct.unpack_from("<HH", image, 58)
    found = []
    for index in range(count):
        head = struct.unpack_from("<IIQQQQIIQQ", image, start + index * size)
        _, kind, _, _, place, length, names, parts, _, _ = head
        found.append(Section(kind, image[place:place + length], names, parts))
    return found


def text_at(names: bytes, place: int) -> str:
    """The name at a place of a section of names."""
    return names[place:names.index(b"\0", place)].decode()


def needed(section: Section, names: bytes) -> list[str]:
    """The libraries that a dynamic section names."""
    found = []
    for key, value in struct.iter_unpack("<QQ", section.content):
        if key == END:
            break
        if key == NEEDED:
            found.append(text_at(names, value))
    return found


def version_needs(section: Section, names: bytes) -> dict[str, list[str]]:
    """The versions that a section needs of each library."""
    found: dict[str, list[str]] = {}
    place = 0
    for _ in range(section.parts):
        _, count, library, first, following = struct.unpack_from("<HHIII", section.content, place)
        versions = found.setdefault(text_at(names, library), [])
        at = place + first
        for _ in range(count):
            _, _, _, version, step = struct.unpack_from("<IHHII", section.content, at)
            versions.append(text_at(names, version))
            at += step
        place += following
    return found


def needs_of(image: bytes) -> dict[str, list[str]]:
    """The libraries that a program needs, with the versions that it needs of each."""
    try:
        sections = sections_of(image)
        found: dict[str, list[str]] = {}
        for section in sections:
            if section.kind == DYNAMIC:
                found |= {library: [] for library in needed(section, sections[section.names].content)}
        for section in sections:
            if section.kind == VERSION_NEEDS:
                found |= version_needs(section, sections[section.names].content)
    except (struct.error, IndexError, ValueError):
        raise NoProgram from None
    if not found:
        raise NoProgram
    return found
