"""The elements of an XML file, with their lines.

A file has at most 16 MiB, and its elements nest at most 64 deep. A DTD is refused, and with it each entity of the
file's own, so no text means more than what is written. Elements are known by their local name in the namespace of the
root; what is of another namespace is left out.
"""
from __future__ import annotations

from dataclasses import dataclass, field
from typing import NamedTuple
from xml.parsers import expat

from ._faults import DeviceFault

FILE_MOST = 1 << 24
DEPTH_MOST = 64
# What expat puts between a namespace and a name. No XML file has this character.
BETWEEN = "\x1f"
# The namespaces of what XML itself and its schemas say of a file.
SILENT = ("http://www.w3.org/XML/1998/namespace", "http://www.w3.org/2001/XMLSchema-instance")


@dataclass(slots=True)
class Node:
    """An element of the file: its local name, the line on which it begins, its attributes, and what is in it."""

    name: str
    line: int
    attributes: dict[str, str]
    children: list[Node] = field(default_factory=list)

    def all(self, name: str) -> list[Node]:
        """The elements of that name in this one."""
        return [it for it in self.children if it.name == name]

    def one(self, name: str) -> Node | None:
        """The one element of that name in this one. Raises DeviceFault if there are several."""
        found = self.all(name)
        if len(found) > 1:
            raise DeviceFault(found[1].line, f"a second {name} in {self.name}")
        return found[0] if found else None


class Tree(NamedTuple):
    """A file: its root, and each namespace that is left out, with the line on which it comes first."""

    root: Node
    foreign: dict[str, int]


class _Reader:
    """Takes what the parser reports."""

    def __init__(self) -> None:
        self.parser = expat.ParserCreate(namespace_separator=BETWEEN)
        self.parser.StartElementHandler = self.start
        self.parser.EndElementHandler = self.end
        self.parser.StartDoctypeDeclHandler = self.doctype
        self.root: Node | None = None
        self.namespace = ""
        self.foreign: dict[str, int] = {}
        self.open: list[Node | None] = []  # from the root to the latest element; None for what is left out

    def doctype(self, *_: object) -> None:
        """A DTD begins."""
        raise DeviceFault(self.parser.CurrentLineNumber, "a DTD is refused, and so is each entity")

    def start(self, name: str, attributes: dict[str, str]) -> None:
        """An element begins."""
        line = self.parser.CurrentLineNumber
        if len(self.open) == DEPTH_MOST:
            raise DeviceFault(line, f"elements nest deeper than {DEPTH_MOST}")
        namespace, _, local = name.rpartition(BETWEEN)
        if self.root is None:
            self.namespace = namespace
            self.root = Node(local, line, self.own(attributes, line))
            self.open.append(self.root)
        elif self.open[-1] is None or namespace != self.namespace:
            self.leave_out(namespace, line)
            self.open.append(None)
        else:
            node = Node(local, line, self.own(attributes, line))
            self.open[-1].children.append(node)
            self.open.append(node)

    def end(self, _: str) -> None:
        """The latest element ends."""
        self.open.pop()

    def own(self, attributes: dict[str, str], line: int) -> dict[str, str]:
        """The attributes without those of a namespace."""
        for name in [it for it in attributes if BETWEEN in it]:
            del attributes[name]
            self.leave_out(name.rpartition(BETWEEN)[0], line)
        return attributes

    def leave_out(self, namespace: str, line: int) -> None:
        """Something of that namespace is left out."""
        if namespace not in SILENT and namespace != self.namespace:
            self.foreign.setdefault(namespace, line)


def read_tree(data: bytes) -> Tree:
    """The elements of a file. Raises DeviceFault if it is no XML, or more than is read."""
    if len(data) > FILE_MOST:
        raise DeviceFault(None, f"the file has more than {FILE_MOST} bytes")
    reader = _Reader()
    try:
        reader.parser.Parse(data, True)
    except expat.ExpatError as fault:
        raise DeviceFault(fault.lineno, f"this is no XML: {expat.ErrorString(fault.code)}") from None
    except DeviceFault:
        raise
    except (LookupError, ValueError, Warning):
        # What Python raises for an encoding that expat does not know itself.
        raise DeviceFault(1, "the file's encoding is unknown") from None
    assert reader.root is not None
    return Tree(reader.root, reader.foreign)
