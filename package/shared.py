#!/usr/bin/env python3
"""Makes the shared library libtrdp_node.so of libtrdp_node.a and trdp_node_alloc.c, with this machine's C compiler.

    package/shared.py ARCHIVE FOLDER        writes FOLDER/libtrdp_node.so.VERSION, and prints its path

It shows only the functions that trdp_node.h declares, under a version, and its text is the same at every address. CC
names another compiler than cc. The status is 1, with the reason, if nothing was made.
"""
from __future__ import annotations

import os
import pathlib
import shlex
import subprocess
import sys
import tempfile

sys.dont_write_bytecode = True
from version import TOP, NoVersion, program_version  # noqa: E402

NAME = "libtrdp_node.so"
# A program that was linked with a library of this number runs with each later one of the same number.
NUMBER = 1
VERSIONS = f"TRDP_NODE_{NUMBER} {{ global: trdp_node_raw_*; trdp_node_layout*; local: *; }};\n"
# -z text refuses text that would have to be changed when the library is loaded.
FLAGS = ["-std=c99", "-O2", "-fPIC", "-shared", "-Wl,-z,text", "-Wl,-z,relro", "-Wl,-z,now", "-Wl,--no-undefined",
         "-Wl,--gc-sections", "-Wl,-s", "-Wl,--build-id=none", f"-Wl,-soname,{NAME}.{NUMBER}"]


class NotMade(Exception):
    """Why there is no shared library."""


def shared_library(archive: pathlib.Path, folder: pathlib.Path) -> pathlib.Path:
    """Makes the shared library in a folder, with the link by which a program finds it when it runs."""
    target = folder / f"{NAME}.{program_version()}"
    compiler = shlex.split(os.environ.get("CC") or "cc")
    with tempfile.NamedTemporaryFile("w", suffix=".map") as versions:
        versions.write(VERSIONS)
        versions.flush()
        memory = TOP / "clients/c/trdp_node_alloc.c"
        words = [*compiler, *FLAGS, f"-Wl,--version-script={versions.name}", "-o", str(target), str(memory),
                 "-Wl,--whole-archive", str(archive), "-Wl,--no-whole-archive"]
        try:
            ran = subprocess.run(words, capture_output=True, text=True)
        except OSError as fault:
            raise NotMade(f"{compiler[0]}: {fault.strerror}") from None
    if ran.returncode:
        raise NotMade(f"{compiler[0]} printed: {ran.stderr.strip()}")
    link = folder / f"{NAME}.{NUMBER}"
    link.unlink(missing_ok=True)
    link.symlink_to(target.name)
    return target


def main(words: list[str]) -> int:
    if len(words) != 2:
        print("usage: package/shared.py ARCHIVE FOLDER", file=sys.stderr)
        return 2
    try:
        print(shared_library(pathlib.Path(words[0]), pathlib.Path(words[1])))
    except (NotMade, NoVersion, OSError) as why:
        print(f"package: {why}", file=sys.stderr)
        return 1
    return 0


if __name__ == "__main__":
    sys.exit(main(sys.argv[1:]))
