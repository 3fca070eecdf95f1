"""Builds proved code as a static library, and a program of bench/ that is linked with it."""
from __future__ import annotations

import os
import shutil
import subprocess
import tempfile
from collections.abc import Callable, Sequence

TOP = os.path.dirname(os.path.dirname(os.path.abspath(__file__)))


def lines_of(names: list[str]) -> list[str]:
    """The lines of crates.txt of these crates and of all that they depend on."""
    needed = set(names)
    lines: list[str] = []
    with open(f"{TOP}/crates.txt") as crates:
        for line in reversed(crates.read().splitlines()):
            name, _, under = line.partition(":")
            if name in needed:
                needed.update(under.split())
                lines.insert(0, line)
    return lines


def write(path: str, text: str) -> None:
    os.makedirs(os.path.dirname(path), exist_ok=True)
    with open(path, "w") as out:
        out.write(text)


def run(program: str, names: list[str], sources: dict[str, str], use: Callable[[str], None],
        links: Sequence[str] = ()) -> None:
    """Builds bench/PROGRAM.rs with a library for C of these sources, by file name, which uses the named crates, and has
    the built program used.

    The library is proved and built in a folder of its own; what is built of the crates is taken along. Both compilers
    build for x86-64-v2.
    """
    with tempfile.TemporaryDirectory() as top:
        subprocess.run(["git", "init", "-q", top], check=True)
        lines = lines_of(names)
        for line in lines:
            crate = f"crates/{line.partition(':')[0]}"
            shutil.copytree(f"{TOP}/{crate}", f"{top}/{crate}", ignore=shutil.ignore_patterns("incremental"))
        library = f"{top}/crates/for_c"
        write(f"{top}/HANDLES", "Handles allowed: none.\n")
        write(f"{top}/crates.txt", "\n".join([*lines, f"for_c staticlib: {' '.join(names)}\n"]))
        for name, text in sources.items():
            write(f"{library}/src/{name}", text)
        subprocess.run(["rt", "lib", "--jobs", "2"], cwd=library, check=True, stdout=subprocess.DEVNULL)
        rustc = ["rustc", "--edition", "2024", "-C", "opt-level=3", "-C", "target-cpu=x86-64-v2"]
        links = [word for name in ["static=for_c", *links] for word in ("-l", name)]
        words = [f"{TOP}/bench/{program}.rs", "-o", f"{top}/{program}", "-L", f"native={library}/out", *links]
        subprocess.run([*rustc, *words], check=True)
        use(f"{top}/{program}")
