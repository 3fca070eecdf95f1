"""Nodes that are imported from the files of import/, for the tests that run them on this machine."""
from __future__ import annotations

import contextlib
import io
import pathlib

import trdp_import
from test_import import EXPECTED, FILES

# The addresses of the files, and those that this machine has. The groups are not joined.
HERE = (("10.0.1.", "127.0.8."), ("10.0.2.", "127.0.9."))


def here(text: str) -> str:
    """A text with addresses of this machine."""
    for address, own in HERE:
        text = text.replace(address, own)
    return text


def import_here(name: str, folder: pathlib.Path, *more: str) -> pathlib.Path:
    """Imports the file of a folder of import/ into a folder of that name, with addresses of this machine. Returns the
    node's configuration."""
    file, *words = EXPECTED[name]
    made = folder / "made"
    made.mkdir(exist_ok=True)
    coding = "iso-8859-1" if name == "leader" else "utf-8"
    for path, code in ((FILES / file, coding), (FILES / "hosts", "utf-8")):
        (made / path.name).write_text(here(path.read_text(code)), code)
    words = [it.replace(str(FILES), str(made)) for it in words]
    with contextlib.redirect_stdout(io.StringIO()):
        status = trdp_import.main([str(made / file), "-o", str(folder / name), *words, *more])
    if status not in (0, 3):
        raise AssertionError(f"the import of {name} ended with status {status}")
    return folder / name / "node.toml"
