"""The calls and indications that docs/PYTHON.md lists: the client has them, with these arguments and defaults."""
from __future__ import annotations

import inspect
import re
import unittest
from collections.abc import Callable
from typing import Any, get_args

import testing
from trdp_slot import Indication, Operator, Slot


def lists(heading: str) -> list[str]:
    """The blocks in Python under a heading of the page."""
    page = (testing.TOP / "docs/PYTHON.md").read_text()
    part = page.partition(f"## {heading}\n")[2].partition("\n## ")[0]
    return re.findall(r"^```python\n(.*?)^```$", part, re.MULTILINE | re.DOTALL)


def arguments(call: Callable[..., Any]) -> list[tuple[str, object]]:
    """The arguments of a call, with their defaults. Each call has `tries`, which the page says once."""
    parameters = inspect.signature(call).parameters.values()
    return [(it.name, it.default) for it in parameters if it.name not in ("self", "tries")]


def listed(block: str) -> dict[str, list[tuple[str, object]]]:
    """The calls in a block, with their arguments."""
    found = re.findall(r"^(\w+)\(([^)]*)\)", block, re.MULTILINE)
    return {name: arguments(eval(f"(lambda {words}: None)")) for name, words in found}


class Signatures(unittest.TestCase):
    """What the page lists is what there is."""

    def test_calls(self) -> None:
        blocks = lists("All calls")
        self.assertEqual(len(blocks), 2)
        for owner, block in zip((Slot, Operator), blocks):
            for name, words in listed(block).items():
                self.assertEqual(words, arguments(getattr(owner, name)), name)
        self.assertEqual((len(listed(blocks[0])), len(listed(blocks[1]))), (20, 5))

    def test_indications(self) -> None:
        block, = lists("Indications")
        kinds = {it.__name__: [(name, inspect.Parameter.empty) for name in it._fields] for it in get_args(Indication)}
        self.assertEqual(listed(block), kinds)
