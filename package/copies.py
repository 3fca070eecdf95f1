"""Copies of the tree. In each copy one crate is proved beside other crates, because two `rt` in one tree wait for each
other. A copy has all sources, because `rt` asks for those of every crate, the libraries below its crate, and what an
earlier run made of the crate itself.

All libraries together take more than 2 GB. A copy on this tree's disk has hard links to them: `rt` only reads a library
that is up to date, and removes a file before it writes another one in its place."""
from __future__ import annotations

import contextlib
import os
import pathlib
import shutil
import tempfile
import time
from collections.abc import Callable

import record

TOP = record.TOP
# What all copies may take of the disk, and what they leave free there, in bytes.
DISK = 2_000_000_000


def bytes_in(folder: pathlib.Path, *but: str) -> int:
    """The bytes that the files in a folder take of the disk, without the folders that have such a name. A file that has
    another link takes none."""
    total = 0
    for inside, folders, files in os.walk(folder):
        folders[:] = [it for it in folders if it not in but]
        for file in files:
            # A proof that runs there removes files meanwhile.
            with contextlib.suppress(OSError):
                found = os.stat(f"{inside}/{file}")
                total += found.st_size if found.st_nlink == 1 else 0
    return total


def remove(folder: pathlib.Path) -> None:
    """Removes a folder. A process that is about to end may still write there, so this tries for two seconds."""
    for _ in range(20):
        shutil.rmtree(folder, ignore_errors=True)
        if not folder.exists():
            break
        time.sleep(0.1)


def in_one_line(why: OSError) -> OSError:
    """Why folders were not copied or moved: only the first of all reasons."""
    return OSError(why.args[0][0][2]) if isinstance(why, shutil.Error) else why


def make(folder: pathlib.Path, name: str) -> pathlib.Path:
    """Makes a copy to prove a crate in, in the folder of all copies. Raises OSError if there is no room for it."""
    copy = folder / name
    libraries = record.crates_below(TOP, name).keys() - {name}
    share: Callable[[str, str], object] = shutil.copy2
    if os.stat(folder).st_dev == os.stat(TOP).st_dev:
        share = os.link
    parts: list[tuple[str, list[str], Callable[[str, str], object]]] = [
        ("crates", ["out", "must-fail"], shutil.copy2), (f"crates/{name}/out", [], shutil.copy2)]
    parts += [(f"crates/{it}/out", ["incremental"], share) for it in libraries]
    room = min(DISK - bytes_in(folder), shutil.disk_usage(folder).free - DISK)
    if sum(bytes_in(TOP / part, *but) for part, but, place in parts if place is not os.link) > room:
        raise OSError(f"all copies of the tree take at most {DISK / 1e9:g} GB of the disk, and leave as much free")
    try:
        for part, but, place in parts:
            if (TOP / part).is_dir():
                shutil.copytree(TOP / part, copy / part, ignore=shutil.ignore_patterns(*but), copy_function=place)
        for file in ("crates.txt", "HANDLES"):
            shutil.copy2(TOP / file, copy / file)
    except OSError as why:
        remove(copy)
        raise in_one_line(why) from None
    return copy


def take(copy: pathlib.Path, name: str) -> None:
    """Moves what was made of a crate in a copy into this tree, and removes the copy. If it can't be moved, OSError is
    raised, and what this tree has of the crate stays."""
    made, out = (it / f"crates/{name}/out" for it in (copy, TOP))
    part = pathlib.Path(tempfile.mkdtemp(prefix=f"{name}-", dir=TOP / "out"))
    try:
        if made.is_dir():
            shutil.move(made, part / "out")
            remove(out)
            (part / "out").rename(out)
    except OSError as why:
        raise in_one_line(why) from None
    finally:
        remove(part)
        remove(copy)
