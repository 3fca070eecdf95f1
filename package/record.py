#!/usr/bin/env python3
"""Which program is proved: a file beside each program says of which sources it was made, and what its own sum is.

    package/record.py state [CRATE]              prints `proved PATH`, `unproved PATH` or `none`: what runs here
    package/record.py digest [CRATE]             prints the digest of all that a proof reads, as it is now
    package/record.py write KIND DIGEST [CRATE]  notes that the program of that kind was made of these sources

KIND is `proved` or `unproved`. CRATE is `trdpd`, the program, or `trdp_node`: the node's library for C is noted in the
same way. A record counts only if its digest is the digest of the tree as it is now and of the
logic that the record itself names, and its sum is the sum of the program as it is now. So a changed definition, a
changed comment, another logic and a replaced program are not called proved, and a file that was only touched changes
nothing. `write` notes nothing, with status 1, if the tree has another digest by now.

The digest is the SHA-256 of HANDLES, crates.txt, the sources in src/, specs/ and proofs/ of each crate that the program
stands on, and the kit's logic. What an editor leaves beside them does not count. Without the kit on PATH the kit that
the record names counts.
"""
from __future__ import annotations

import hashlib
import os
import pathlib
import re
import shutil
import subprocess
import sys
from collections.abc import Iterator
from typing import NamedTuple

TOP = pathlib.Path(__file__).resolve().parent.parent
PROGRAM = "trdpd"
LIBRARY = "trdp_node"
# What is made of each crate.
MADE = {PROGRAM: PROGRAM, LIBRARY: f"lib{LIBRARY}.a"}
KINDS = ("proved", "unproved")
PARTS = ("src", "specs", "proofs")
# The kit reads no other files there.
SOURCES = (".rt", ".antt")
KEYS = ("kind", "digest", "program", "kit", "commit")


class Record(NamedTuple):
    """What a program was made of."""

    kind: str
    """`proved` or `unproved`."""
    digest: str
    """The digest of the sources."""
    program: str
    """The SHA-256 of the program."""
    kit: str
    """The kit, as `rt version` prints it."""
    commit: str
    """The commit; with `and changes` if files differed from it."""

    def text(self) -> str:
        """The record's file."""
        return "".join(f"{key} {value}\n" for key, value in zip(KEYS, self))


class Mismatch(Exception):
    """Why a record isn't written."""


def place_of(kind: str, crate: str = PROGRAM) -> str:
    """Where the program of a kind is, or the library, from the top of the tree."""
    return f"crates/{crate}/out/{MADE[crate]}" if kind == "proved" else f"out/unproved/{MADE[crate]}"


def logic_of(kit: str) -> str:
    """The logic of a kit, from the line that `rt version` prints."""
    return kit.rpartition(" ")[2]


def sum_of(path: pathlib.Path | str) -> str:
    """The SHA-256 of a file."""
    with open(path, "rb") as file:
        return hashlib.file_digest(file, "sha256").hexdigest()


def crates_below(top: pathlib.Path, crate: str = PROGRAM) -> dict[str, list[str]]:
    """The crates that a crate stands on, and itself; each with the crates that it names."""
    lines = [line.split("#")[0].partition(":") for line in (top / "crates.txt").read_text().splitlines()]
    below = {name.split()[0]: crates.split() for name, _, crates in lines if name.strip()}
    found: dict[str, list[str]] = {}
    left = [crate]
    while left:
        name = left.pop()
        if name in below and name not in found:
            found[name] = [it for it in below[name] if it in below]
            left += below[name]
    return found


def files_read(top: pathlib.Path, crate: str = PROGRAM) -> Iterator[str]:
    """The files that a proof of a crate reads, as paths from the top. Plain text, since each start reads 1,300."""
    yield from (it for it in ("HANDLES", "crates.txt") if (top / it).exists())
    for name in crates_below(top, crate):
        for part in PARTS:
            for folder, _, files in os.walk(top / "crates" / name / part):
                inside = os.path.relpath(folder, top)
                sources = (f"{inside}/{file}" for file in files if file.endswith(SOURCES))
                yield from (it for it in sources if os.path.isfile(f"{top}/{it}"))


def digest_of(top: pathlib.Path, kit: str, crate: str = PROGRAM) -> str:
    """The digest of all that a proof by that kit reads."""
    total = hashlib.sha256()
    for path in sorted(files_read(top, crate), key=lambda it: it.split("/")):
        total.update(f"{sum_of(f'{top}/{path}')}  {path}\n".encode())
    total.update(f"{logic_of(kit)}  logic\n".encode())
    return total.hexdigest()


def kit_line() -> str | None:
    """The kit, as `rt version` prints it; None if it isn't there. Its file is read, since `rt` starts slowly."""
    found = shutil.which(os.environ.get("RT") or "rt")
    if found is None:
        return None
    try:
        return (pathlib.Path(found).resolve().parent.parent / "KIT-ID").read_text().strip()
    except OSError:
        ran = subprocess.run([found, "version"], capture_output=True, text=True)
        return ran.stdout.strip() or None


def commit_of(top: pathlib.Path) -> str:
    """The commit of a tree, with `and changes` if files differ from it."""
    def git(*words: str) -> str:
        try:
            ran = subprocess.run(["git", "-C", str(top), *words], capture_output=True, text=True)
        except OSError:
            return ""
        return ran.stdout.strip() if ran.returncode == 0 else ""

    if not (top / ".git").exists() or not (commit := git("rev-parse", "HEAD")):
        return "unknown"
    # A proof also reads a file that git doesn't know.
    changes = (git("status", "--porcelain", "--untracked-files=no")
               or git("ls-files", "--others", "--exclude-standard", "--", "HANDLES", "crates.txt", "crates"))
    return f"{commit} and changes" if changes else commit


def record_place(program: pathlib.Path) -> pathlib.Path:
    """The record's file beside a program."""
    return program.with_name(f"{program.name}.record")


def read_record(program: pathlib.Path) -> Record | None:
    """The record of a program; None if there is none that can be read, or the program is another one."""
    try:
        lines = record_place(program).read_text("utf-8").splitlines()
        found = dict(line.partition(" ")[::2] for line in lines)
        record = Record(*(found[key] for key in KEYS))
        # A library isn't run.
        mode = os.R_OK if program.suffix == ".a" else os.X_OK
        return record if os.access(program, mode) and sum_of(program) == record.program else None
    except (OSError, KeyError, UnicodeDecodeError):
        return None


def current(top: pathlib.Path, crate: str = PROGRAM) -> tuple[pathlib.Path, Record] | None:
    """The program that runs here, or the library, and its record: the proved one, if there is one of the tree as it is,
    and else the one that was compiled of it without proof."""
    kit = kit_line()
    for kind in KINDS:
        program = top / place_of(kind, crate)
        record = read_record(program)
        if record is None or record.kind != kind or logic_of(kit or record.kit) != logic_of(record.kit):
            continue
        if record.digest == digest_of(top, record.kit, crate):
            return program, record
    return None


def write(top: pathlib.Path, kind: str, digest: str, crate: str = PROGRAM) -> None:
    """Notes what a program was made of. Raises Mismatch if the tree or the program isn't what it was."""
    program = top / place_of(kind, crate)
    kit = kit_line()
    if kit is None:
        raise Mismatch("the Rattle kit isn't there any more")
    if digest_of(top, kit, crate) != digest:
        raise Mismatch("a source has changed meanwhile: begin again")
    record = Record(kind, digest, sum_of(program), kit, commit_of(top))
    part = record_place(program).with_suffix(".part")
    part.write_text(record.text(), "utf-8")
    part.replace(record_place(program))


def main(words: list[str]) -> int:
    crate = words.pop() if len(words) > 1 and words[-1] in MADE else PROGRAM
    match words:
        case ["state"]:
            found = current(TOP, crate)
            print(f"{found[1].kind} {found[0]}" if found else "none")
        case ["digest"]:
            print(digest_of(TOP, kit_line() or "", crate))
        case ["write", kind, digest] if kind in KINDS and re.fullmatch("[0-9a-f]{64}", digest):
            try:
                write(TOP, kind, digest, crate)
            except (Mismatch, OSError) as why:
                print(f"run: {why}", file=sys.stderr)
                return 1
        case _:
            usage = "state [CRATE] | digest [CRATE] | write KIND DIGEST [CRATE]"
            print(f"usage: package/record.py {usage}", file=sys.stderr)
            return 2
    return 0


if __name__ == "__main__":
    sys.exit(main(sys.argv[1:]))
