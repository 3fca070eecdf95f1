#!/usr/bin/env python3
"""Compiles the node's library for C without proof, optimised, into the archive that is named.

    package/unproved_node.py FILE

`rt try` compiles only programs. So it is run in a copy of the tree in which the library is a program that calls each
export, over a folder of links to the kit in which clang is a script that keeps the program's module. In that module the
exports get the names that C calls, and nothing else stays visible. Unlike the proved library this one checks each sum,
index and access at run time, and traps if one is wrong. The status is 1, with the reason, if nothing was compiled.
"""
from __future__ import annotations

import pathlib
import re
import subprocess
import sys
import tempfile

sys.dont_write_bytecode = True
from unproved import NoProgram, copy_sources, find_kit, make_kit, try_crate  # noqa: E402

CRATE = "trdp_node"
# What keeps the module that has the library's functions, and doesn't compile it; smaller ones come before.
CLANG = """#!/bin/sh
for word; do
    case $word in *.bc) if grep -q "CRATE::" "$word"; then cp "$word" "{kept}"; exit 1; fi ;; esac
done
exec "{clang}" "$@"
""".replace("CRATE", CRATE)
EXPORT = re.compile(r'pub (unsafe )?extern "C" fn (\w+)\((.*?)\)', re.DOTALL)
# How the kit's clang compiles a library of the same machine.
FLAGS = ["--target=x86_64-unknown-linux-gnu", "-march=x86-64", "-x", "ir", "-Wno-override-module"]
# A program that calls all exports, and never does so when it runs.
MAIN = """
fn main(rt: core::rt::HostRuntime) {{
    let mut byte = 0u8;
    call_all(rt.alloc(), &mut byte as *mut u8, false);
}}

fn call_all(alloc: Global, at: *mut u8, is_wanted: bool) {{
    if is_wanted {{
{calls}    }}
}}
"""


def argument(parameter: str) -> str:
    """A value for a parameter of an export."""
    kind = " ".join(parameter.partition(":")[2].split())
    if kind == "Global":
        return "alloc"
    if kind == "*mut u8":
        return "at"
    if kind == "&[u8]":
        return 'b""'
    if found := re.fullmatch(r"&(mut )?(.*)", kind):
        return f"unsafe {{ &{found[1] or ''}*(at as *mut {found[2]}) }}"
    return "0"


def calls_of(source: str) -> str:
    """A call of each export of the library."""
    found = ""
    for unsafe, name, parameters in EXPORT.findall(source):
        values = ", ".join(argument(it) for it in parameters.split(",") if it.strip())
        call = f"{name}({values});"
        found += f"        unsafe {{ {call} }}\n" if unsafe else f"        {call}\n"
    return found


def make_program(tree: pathlib.Path) -> tuple[pathlib.Path, list[str]]:
    """Makes a program of the library's crate. Answers its folder, and the names of the exports."""
    crate = tree / "crates" / CRATE
    library = crate / "src/lib.rt"
    source = library.read_text("utf-8")
    (crate / "src/main.rt").write_text(source + MAIN.format(calls=calls_of(source)), "utf-8")
    library.unlink()
    listed = tree / "crates.txt"
    listed.write_text(listed.read_text().replace(f"{CRATE} staticlib:", f"{CRATE}:"))
    return crate, [name for _, name, _ in EXPORT.findall(source)]


def with_names(module: str, names: list[str]) -> str:
    """The module's text, in which C sees these functions, and no other one."""
    for name in ("main", *names):
        own = name if name == "main" else f'"{CRATE}::{name}"'
        seen = "internal " if name == "main" else ""
        pattern = re.compile(rf"^define (internal )?(.*?)@{re.escape(own)}\(", re.MULTILINE)
        module, count = pattern.subn(rf"define {seen}\g<2>@{name}(", module)
        if count != 1:
            raise NoProgram(f"the module defines {name} {count} times")
        if name != "main":
            module = module.replace(f"@{own}(", f"@{name}(")
    return module


def build(target: pathlib.Path, scratch: pathlib.Path) -> None:
    """Compiles the library into that archive."""
    kit, kept = find_kit(), scratch / "module.bc"
    make_kit(kit, scratch / "kit", kept, CLANG)
    (scratch / "tree").mkdir()
    copy_sources(scratch / "tree")
    crate, names = make_program(scratch / "tree")
    try_crate(crate, scratch / "kit", kept)
    tools, text, code = kit / "toolchain/bin", scratch / "module.ll", scratch / f"{CRATE}.o"
    subprocess.run([tools / "clang", *FLAGS, "-S", "-emit-llvm", "-o", text, kept], check=True)
    text.write_text(with_names(text.read_text("utf-8"), names), "utf-8")
    split = ["-ffunction-sections", "-fdata-sections"]
    subprocess.run([tools / "clang", *FLAGS, "-O2", "-fPIC", *split, "-c", "-o", code, text], check=True)
    target.parent.mkdir(parents=True, exist_ok=True)
    part = target.with_suffix(".part")
    part.unlink(missing_ok=True)
    subprocess.run([tools / "llvm-ar", "rcsD", part, code], check=True)
    part.replace(target)


def main(words: list[str]) -> int:
    if len(words) != 1:
        print("usage: package/unproved_node.py FILE", file=sys.stderr)
        return 2
    try:
        with tempfile.TemporaryDirectory() as scratch:
            build(pathlib.Path(words[0]).absolute(), pathlib.Path(scratch))
    except (NoProgram, OSError, subprocess.CalledProcessError) as why:
        print(f"run: {why}", file=sys.stderr)
        return 1
    except KeyboardInterrupt:
        print("run: interrupted", file=sys.stderr)
        return 130
    return 0


if __name__ == "__main__":
    sys.exit(main(sys.argv[1:]))
