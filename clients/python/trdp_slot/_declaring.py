"""Makes the objects of a file, which has a name before each call."""
from __future__ import annotations

import os
from collections.abc import Callable, Sequence
from typing import NamedTuple

from ._calls import Calls
from ._faults import ConfigFault, Refused
from ._indications import Handle
from ._shown import shown
from ._tables import faults_of
from ._words import address_word, number_word, place_word, uri_of, uri_word

LINES_MOST = 1 << 24  # bytes of a file that is read

Reader = Callable[[str], str]  # reads a word of a line, and returns it as it has to be written


def number(high: int = 0xFFFFFFFF) -> Reader:
    return lambda word: number_word("a number", int(word), 0, high)


def address(word: str) -> str:
    return address_word("an address", word)


def place(word: str) -> str:
    return place_word("a place", word)


def com_id(word: str) -> str:
    return word if word == "any" else number()(word)


def behaviour(word: str) -> str:
    return word if word in ("zero", "keep") else ""


def uri(word: str) -> str:
    return uri_word("a URI", uri_of(word))


class Form(NamedTuple):
    """A call that makes an object: its words, the kind of the object, and the call that ends the object. If the second
    word is a dataset, values of it are packed."""

    words: Sequence[Reader]
    kind: str
    end: str
    has_dataset: bool = False


FORMS = {
    "publish": Form((number(), number(), number(), number(255), number(), number(), place), "publisher", "unpublish",
                    has_dataset=True),
    "subscribe": Form((number(), number(), address, address, address, number(), number(), number(), behaviour),
                      "subscription", "unsubscribe", has_dataset=True),
    "openpull": Form((number(), number(), address, number(), number(), place), "requester", "closepull"),
    "listen": Form((com_id, address, address, address, uri, number(), number()), "listener", "unlisten"),
}


class Declaration(NamedTuple):
    """A call of a file, with the name of its object."""

    name: str
    verb: str
    words: Sequence[str]

    @property
    def form(self) -> Form:
        return FORMS[self.verb]

    @property
    def dataset(self) -> int:
        """The dataset of the object's values, 0 for bytes."""
        return int(self.words[1]) if self.form.has_dataset else 0


def declare(calls: Calls, path: str | os.PathLike[str], tries: int) -> dict[str, Handle]:
    """Makes the objects of a file, in its order. If one is refused, those before it are ended."""
    declarations = read_declarations(path)
    made: dict[str, Handle] = {}
    try:
        for it in declarations:
            made[it.name] = calls.open(it.form.kind, it.verb, it.words, tries, it.dataset)
    except Refused:
        for it in declarations[:len(made)]:
            calls.end(it.form.end, made[it.name], None)
        raise
    return made


def read_declarations(path: str | os.PathLike[str]) -> list[Declaration]:
    """The calls of a file. Raises OSError, and ConfigFault if one can't be read, or has no name of its own."""
    with open(os.fspath(path), "rb") as file:
        data = file.read(LINES_MOST + 1)
    found: dict[str, Declaration] = {}
    name = ""
    with faults_of(path):
        if len(data) > LINES_MOST:
            raise ConfigFault(f"the file has more than {LINES_MOST} bytes")
        for index, line in enumerate(data.decode("utf-8", "replace").split("\n"), 1):
            line = line.removesuffix("\r")
            if line and not line.startswith("#"):
                found[name] = declaration_of(index, line, name, found)
            name = name_of(line)
    return list(found.values())


def name_of(line: str) -> str:
    """The name in a remark, which has it as its only word; "" for any other line."""
    words = line.removeprefix("# ").split()
    return words[0] if line.startswith("# ") and len(words) == 1 else ""


def declaration_of(index: int, line: str, name: str, earlier: dict[str, Declaration]) -> Declaration:
    """The call in a line. Raises ConfigFault if it is none that makes an object which stays."""
    verb, *words = line.split(" ")
    if not name:
        raise ConfigFault(f"line {index}: there is no remark `# NAME` right before the call")
    if name in earlier:
        raise ConfigFault(f"line {index}: the name {shown(name)} is there twice")
    if verb not in FORMS:
        raise ConfigFault(f"line {index}: {shown(verb)} is none of {', '.join(FORMS)}")
    if len(words) != len(FORMS[verb].words):
        raise ConfigFault(f"line {index}: {verb} has {len(FORMS[verb].words)} words behind it, and not {len(words)}")
    for word, read in zip(words, FORMS[verb].words):
        if not is_word(word, read):
            raise ConfigFault(f"line {index}: {shown(word)} is no word that {verb} can have there")
    return Declaration(name, verb, words)


def is_word(word: str, read: Reader) -> bool:
    """Whether a word is one that is read so."""
    try:
        return read(word) == word
    except ValueError:
        return False
