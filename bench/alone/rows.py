"""Scripts that are in the repository with what they give: the rows of rows/, and the examples."""
from __future__ import annotations

from collections.abc import Iterator
from importlib.machinery import SourceFileLoader
from importlib.util import module_from_spec, spec_from_loader
from pathlib import Path
from types import ModuleType

# Where a script is, its configuration, its lines, what it gives, and the fault at which it ends.
Script = tuple[str, str, str, str, str | None]


def reader(top: str) -> ModuleType:
    """The program rows/play, which reads files of rows."""
    loader = SourceFileLoader("play_rows", str(Path(top, "rows", "play")))
    spec = spec_from_loader("play_rows", loader)
    assert spec is not None
    module = module_from_spec(spec)
    loader.exec_module(module)
    return module


def rows_of(top: str) -> Iterator[Script]:
    """Each row whose configuration is accepted: where it is, its configuration, its script, its output and its
    ending."""
    reading, node = reader(top), Path(top, "rows", "node.toml").read_text()
    for file in sorted(Path(top, "rows").glob("*.rows")):
        for row in reading.rows_of(str(file)):
            if not row.ending.startswith("config fault "):
                config = "".join(row.config) or node
                yield row.place, config, "".join(row.lines), "".join(row.given), row.ending.strip() or None


def examples_of(top: str) -> Iterator[Script]:
    for script in sorted(Path(top, "examples").glob("**/*.script")):
        config = script.with_name("node.toml").read_text()
        where = str(script.relative_to(top))
        yield where, config, script.read_text(), script.with_suffix(".out").read_text(), None


def all_of(top: str) -> Iterator[Script]:
    """Each script of the repository that has its output beside it."""
    yield from rows_of(top)
    yield from examples_of(top)
