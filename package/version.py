"""The version of the program and of all that is packed with it, as the program's source declares it.

The package, bench/command_words.py and the tests of what is installed read it here. Two files read the same line
themselves, since they install without this one: clients/python/setup.py and clients/c/CMakeLists.txt.
"""
from __future__ import annotations

import pathlib
import re

TOP = pathlib.Path(__file__).resolve().parent.parent
SOURCE = "crates/trdpd/src/version.rt"
LINE = re.compile(r'^pub const VERSION: &str = "(\d+\.\d+\.\d+)";$', re.MULTILINE)


class NoVersion(Exception):
    """Why there is no version."""


def program_version() -> str:
    """The version, for example 1.0.0. Raises NoVersion unless the source declares one, once."""
    try:
        found = LINE.findall((TOP / SOURCE).read_text("utf-8"))
    except OSError as fault:
        raise NoVersion(f"{SOURCE}: {fault.strerror}") from None
    if len(found) != 1:
        raise NoVersion(f"{SOURCE} names no version")
    return str(found[0])
