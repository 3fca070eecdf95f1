#!/usr/bin/env python3
"""Compiles the program without proof, optimised, into the file that is named.

    package/unproved.py FILE

The kit's `rt try` compiles a program without proof and runs it, but it neither optimises nor keeps it. So it is run
over a folder of links to the kit, in which clang is a script that optimises, and the linker one that keeps the first
program. It is run in a copy of the tree, whose program says `not proved` where the proved one names its logic. The
status is 1, with the reason, if nothing was compiled.
"""
from __future__ import annotations

import os
import pathlib
import shutil
import subprocess
import sys
import tempfile

TOP = pathlib.Path(__file__).resolve().parent.parent
# What the program says of its proof, and what it says without one.
CLAIM, NO_CLAIM = "proved with logic {LOGIC}", "not proved"
# The kit has clang compile the program once, with -O0 and with checks of each access that a sanitizer makes.
CLANG = """#!/bin/sh
for word; do
    shift
    case $word in
        -O0) set -- "$@" -O2 ;;
        -fsanitize=address) ;;
        *) set -- "$@" "$word" ;;
    esac
done
exec "{clang}" "$@"
"""
LINKER = """#!/bin/sh
"{linker}" "$@" || exit
while [ $# -gt 1 ]; do
    if [ "$1" = -o ] && [ ! -e "{kept}" ]; then cp "$2" "{kept}"; fi
    shift
done
"""


class NoProgram(Exception):
    """Why nothing was compiled."""


def link_all(source: pathlib.Path, target: pathlib.Path, *but: str) -> None:
    """Makes a folder of links to what is in another one, except for these names."""
    target.mkdir()
    for path in source.iterdir():
        if path.name not in but:
            (target / path.name).symlink_to(path)


def write_script(path: pathlib.Path, text: str) -> None:
    """Writes a script that can be run."""
    path.write_text(text)
    path.chmod(0o755)


def make_kit(kit: pathlib.Path, copy: pathlib.Path, kept: pathlib.Path, clang: str = CLANG) -> None:
    """Makes the folder of links to the kit, whose linker keeps the first program at that path; clang is a script."""
    link_all(kit, copy, "bin", "toolchain")
    link_all(kit / "bin", copy / "bin", "rt", "rtlib.py", "rattle")
    # `rt` finds the rest of its kit beside its own file. `rattle` would look for hints meanwhile, for a minute.
    for name in ("rt", "rtlib.py"):
        shutil.copy(kit / "bin" / name, copy / "bin")
    write_script(copy / "bin/rattle", "#!/bin/sh\nexit 1\n")
    tools = kit / "toolchain/bin"
    link_all(kit / "toolchain", copy / "toolchain", "bin")
    link_all(tools, copy / "toolchain/bin", "clang", "ld.lld")
    write_script(copy / "toolchain/bin/clang", clang.format(clang=tools / "clang", kept=kept))
    write_script(copy / "toolchain/bin/ld.lld", LINKER.format(linker=tools / "ld.lld", kept=kept))


def copy_sources(copy: pathlib.Path) -> None:
    """Copies the sources into a new tree."""
    shutil.copytree(TOP / "crates", copy / "crates", ignore=shutil.ignore_patterns("out", "proofs", "must-fail"))
    for name in ("crates.txt", "HANDLES"):
        shutil.copy(TOP / name, copy)
    subprocess.run(["git", "init", "-q", copy], check=True)


def copy_tree(copy: pathlib.Path) -> pathlib.Path:
    """Copies the sources, in which the program claims no proof. Answers the folder of the program's crate."""
    copy_sources(copy)
    main = copy / "crates/trdpd/src/main.rt"
    text = main.read_text("utf-8")
    if text.count(CLAIM) != 1:
        raise NoProgram(f"{main.relative_to(copy)} doesn't say {CLAIM!r} once")
    main.write_text(text.replace(CLAIM, NO_CLAIM), "utf-8")
    return main.parent.parent


def find_kit() -> pathlib.Path:
    """The folder of the Rattle kit."""
    found = shutil.which(os.environ.get("RT") or "rt")
    if found is None:
        raise NoProgram("the Rattle kit's command rt must be on PATH, or its path in RT")
    return pathlib.Path(found).resolve().parent.parent


def try_crate(crate: pathlib.Path, kit: pathlib.Path, kept: pathlib.Path) -> None:
    """Runs `rt try` of that kit in a crate's folder, so that it keeps what is made."""
    words = [str(kit / "bin/rt"), "try", "--", "--version"]
    ran = subprocess.run(words, cwd=crate, stdin=subprocess.DEVNULL, capture_output=True, text=True)
    if not kept.exists():
        raise NoProgram(f"rt try said: {ran.stderr.strip() or ran.stdout.strip()}")


def build(target: pathlib.Path, scratch: pathlib.Path) -> None:
    """Compiles the program into that file."""
    kept = scratch / "program"
    make_kit(find_kit(), scratch / "kit", kept)
    (scratch / "tree").mkdir()
    try_crate(copy_tree(scratch / "tree"), scratch / "kit", kept)
    target.parent.mkdir(parents=True, exist_ok=True)
    part = target.with_suffix(".part")
    shutil.copy(kept, part)
    part.chmod(0o755)
    part.replace(target)


def main(words: list[str]) -> int:
    if len(words) != 1:
        print("usage: package/unproved.py FILE", file=sys.stderr)
        return 2
    try:
        with tempfile.TemporaryDirectory() as scratch:
            build(pathlib.Path(words[0]).absolute(), pathlib.Path(scratch))
    except (NoProgram, OSError, subprocess.CalledProcessError) as why:
        print(f"run: {why}", file=sys.stderr)
        return 1
    except KeyboardInterrupt:
        print("run: interrupted", file=sys.stderr)
        return 130
    return 0


if __name__ == "__main__":
    sys.exit(main(sys.argv[1:]))
