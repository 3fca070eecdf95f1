#!/usr/bin/env python3
"""Writes the datasets of comIds for wireshark/trdp.lua, so that Wireshark and tshark show values in place of bytes.

    trdp_lua.py node.toml > datasets.lua
    tshark -X lua_script:wireshark/trdp.lua -X lua_script:datasets.lua -r capture.pcapng

The file is a node's configuration, or any other one, with its `[[dataset]]` tables, and beside them one

    [[telegram]]
    com_id = 2101
    dataset = 5002

for each comId. The node ignores these. If the file has names, units and scales, they are shown, too.
"""
from __future__ import annotations

import argparse
import functools
import sys
from collections.abc import Iterable, Mapping
from typing import NoReturn

import trdp_words
from trdp_slot import Datasets, Element, decimals_of

NAME = trdp_words.name_of("trdp_lua.py")
HEAD = """\
-- The datasets of comIds, a second script beside wireshark/trdp.lua. Written by clients/python/trdp_lua.py.
"""


def lua_text(text: str) -> str:
    """A text in Lua. All bytes but plain letters and signs are written by their numbers, so no name ends the text."""
    data = trdp_words.printable(text).encode()
    return '"' + "".join(f"\\{it:03}" if it > 0x7E or it in b'"\\' else chr(it) for it in data) + '"'


def element_table(element: Element) -> str:
    """An element in Lua: the name of a basic type or the number of a dataset, the size, and what people read."""
    words = [kind_word(element), str(element.size)]
    if element.name:
        words.append(f"name = {lua_text(element.name)}")
    if element.unit:
        words.append(f"unit = {lua_text(element.unit)}")
    if (element.scale, element.offset) != (1, 0):
        decimals = decimals_of(element)
        words += [f"scale = {element.scale}", f"offset = {element.offset}"]
        words += [] if decimals is None else [f"decimals = {decimals}"]
    return f"{{ {', '.join(words)} }}"


def kind_word(element: Element) -> str:
    """The type of an element in Lua."""
    if isinstance(element.type, int):
        return str(element.type)
    # Without a name or another key a BITSET8 is called BOOL8, as ever: both have the number 1.
    is_plain = element == Element("BITSET8", element.size)
    return lua_text("BOOL8" if is_plain else element.as_ or element.type)


def section(name: str, lines: Iterable[str]) -> list[str]:
    """The lines of a table in the global one."""
    return [f"    {name} = {{", *(f"        {it}," for it in lines), "    },"]


def names_section(name: str, names: Mapping[int, str]) -> list[str]:
    """A section of names by numbers; none where there are no names."""
    return section(name, (f"[{number}] = {lua_text(it)}" for number, it in names.items())) if names else []


def lua_table(datasets: Datasets) -> str:
    """The script: a global table of the comIds that have a dataset, of all datasets, and of the names of both."""
    com_ids = [f"[{com_id}] = {number}" for com_id, number in sorted(datasets.com_ids.items()) if number]
    elements = [f"[{number}] = {{ {', '.join(map(element_table, of))} }}" for number, of in datasets.elements.items()]
    telegrams = {it.com_id: it.name for it in datasets.telegrams.values() if it.name}
    lines = [HEAD + "_G.trdp_datasets = {", *section("com_ids", com_ids), *section("datasets", elements),
             *names_section("telegram_names", telegrams), *names_section("dataset_names", datasets.dataset_names)]
    return "\n".join([*lines, "}", ""])


class OneFile(trdp_words.Words):
    """A command line of one file. Other words are answered by how it is written, and status 2."""

    def error(self, message: str) -> NoReturn:
        """Ends the program by that."""
        self.exit(2, self.format_usage())


@functools.cache
def parser() -> OneFile:
    """All words of the command line."""
    words = OneFile(prog=NAME, usage="%(prog)s FILE", allow_abbrev=False,
                    description="Writes the datasets of comIds for wireshark/trdp.lua, by which Wireshark and tshark "
                                "show values in place of bytes.")
    words.add_argument("file", metavar="FILE", help="a file with datasets, and [[telegram]] tables of comIds")
    return words


def parse(words: list[str] | None) -> argparse.Namespace:
    """The words of the command line: these, or those of the program."""
    asked = parser().parse_args(words)
    if asked.file.startswith("-"):
        parser().error("a file's name that begins with - is none here")
    return asked


def main(words: list[str] | None = None) -> int:
    """Exit status 0, 1 where the file can't be read or nothing can be written, 2 for other words."""
    asked = parse(words)
    try:
        datasets = trdp_words.datasets_of(asked.file)
        if not datasets.com_ids:
            print(f"{NAME}: {asked.file} has no [[telegram]] tables, so that no comId has a dataset", file=sys.stderr)
        trdp_words.write_file(lua_table(datasets))
    except (OSError, ValueError) as fault:
        trdp_words.drop_output()
        print(f"{NAME}: {trdp_words.sentence(fault)}", file=sys.stderr)
        return 1
    return 0


if __name__ == "__main__":
    sys.exit(main())
