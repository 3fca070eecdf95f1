#!/usr/bin/env python3
"""Packs the program twice, and uses what is in the package; and looks at what ./run says before anything is built.

    bench/package.py [PROGRAM]          default: crates/trdpd/out/trdpd (./run prove builds it)

Copies of the project in two folders have to give the same bytes. The .deb and the .tar.gz have to have the same
files. From where they are unpacked the program, the tools, the client in Python, the completion and the header are
tried. The manual page of each tool must have the options of its help, and no others. What is no program, or has no
version or no licence, must be refused, and nothing written. Prints a line for each that isn't as it should be, one
`skipped ..` for each tool that isn't there, and then how many were looked at. The status is 0 where all are as they
should be.
"""
from __future__ import annotations

import gzip
import io
import os
import pathlib
import re
import shutil
import subprocess
import sys
import tarfile
import tempfile

TOP = pathlib.Path(__file__).resolve().parent.parent
# What the package is made of.
PARTS = ("run", "README.md", "CHANGELOG.md", "CONTRIBUTING.md", "SECURITY.md", "LICENSE", "crates.txt",
         "crates/trdpd/src", "package", "docs", "examples", "clients", "wireshark")
MODULES = "usr/lib/python3/dist-packages"
DOOR = "usr/share/doc/trdpd/examples/control/door.toml"
DEVICE = "usr/share/doc/trdpd/examples/import/doors.xml"
C_PROGRAM = """\
#include <trdp_slot.h>
int main(void) { return sizeof(struct trdp_slot) == 0; }
"""
COMPLETE = """\
. usr/share/bash-completion/completions/trdpd
COMP_WORDS=(trdpd daemon x --l); COMP_CWORD=3; _trdpd; echo "${COMPREPLY[*]}"
COMP_WORDS=(trdpd s); COMP_CWORD=1; _trdpd; echo "${COMPREPLY[*]}"
"""
WORDS = ("build", "prove", "build", "prove", "run", "check", "daemon", "serve", "package", "help", "--version",
         "--help")
# What is changed in a file of a copy, and why it isn't packed then.
REFUSED = (
    ("crates/trdpd/src/version.rt", "pub const", "const", "crates/trdpd/src/version.rt names no version"),
    ("crates.txt", "trdp_fcs:", "trdp_fcs: rayon", "package/licences.txt doesn't name rayon"),
    ("examples/node.toml", "10.0.0.1", "10.0.0.2",
     "examples/node.toml has 'address = \"10.0.0.1\"' 0 times, and not once"),
    ("examples/systemd/trdpd.service", "# The daemon makes", "# It makes",
     "examples/systemd/trdpd.service has no lines that give control sockets to groups"),
)


class Looks:
    """How many were looked at, and how many differ."""

    made = differ = 0

    @classmethod
    def look(cls, is_so: bool, what: str) -> None:
        cls.made += 1
        if not is_so:
            cls.differ += 1
            print(what)


def run(words: list[str], folder: pathlib.Path, **changes: str) -> subprocess.CompletedProcess[str]:
    """Runs a command in a folder, over an environment of its own."""
    environment = {"PATH": os.environ["PATH"], "PYTHONDONTWRITEBYTECODE": "1", **changes}
    return subprocess.run(words, cwd=folder, env=environment, stdin=subprocess.DEVNULL, capture_output=True, text=True,
                          timeout=600)


def look_at(words: list[str], folder: pathlib.Path, begins: str, **changes: str) -> None:
    """Whether a command ends with status 0, and what it says begins like that."""
    ran = run(words, folder, **changes)
    is_so = ran.returncode == 0 and ran.stdout.startswith(begins)
    Looks.look(is_so, f"{' '.join(words)}: {ran.returncode}, {ran.stdout!r}, {ran.stderr!r}")


def copy_to(folder: pathlib.Path) -> pathlib.Path:
    """Copies what the package is made of, at new times."""
    for part in PARTS:
        source, target = TOP / part, folder / part
        target.parent.mkdir(parents=True, exist_ok=True)
        if source.is_dir():
            ignore = shutil.ignore_patterns("out", "__pycache__")
            shutil.copytree(source, target, ignore=ignore, copy_function=shutil.copy)
        elif source.exists():
            shutil.copy(source, target)
    return folder


def pack(folder: pathlib.Path, program: str) -> dict[str, bytes]:
    """The archives that a copy makes, by their names."""
    ran = run(["./run", "package"], folder, TRDPD_PROGRAM=program)
    Looks.look(ran.returncode == 0, f"./run package: {ran.returncode}, {ran.stderr!r}")
    return {path.name: path.read_bytes() for path in (folder / "out").glob("*")}


def data_of(deb: bytes) -> bytes:
    """The archive of the files in a .deb."""
    place = 8
    while place < len(deb):
        name, length = deb[place:place + 16].decode().strip(), int(deb[place + 48:place + 58])
        if name == "data.tar.xz":
            return deb[place + 60:place + 60 + length]
        place += 60 + length + length % 2
    return b""


def listed(archive: tarfile.TarFile) -> dict[str, tuple[int, bytes]]:
    """The files of an archive, below its top folder, with their modes."""
    found = {}
    for member in archive.getmembers():
        content = archive.extractfile(member) if member.isfile() else None
        if content is not None:
            found[member.name.partition("/")[2]] = (member.mode, content.read())
    return found


def unpack(archives: dict[str, bytes], folder: pathlib.Path) -> None:
    """Unpacks the .deb into a folder, and looks whether the .tar.gz has the same."""
    found = []
    for name, content in sorted(archives.items()):
        data = data_of(content) if name.endswith(".deb") else content
        with tarfile.open(fileobj=io.BytesIO(data)) as archive:
            found.append(listed(archive))
            if name.endswith(".deb"):
                archive.extractall(folder)
    Looks.look(len(found) == 2 and found[0] == found[1], "the .deb and the .tar.gz have other files")


def look_at_header(folder: pathlib.Path) -> None:
    """Compiles a program by pkg-config and the header."""
    missing = [tool for tool in ("pkg-config", "gcc") if shutil.which(tool) is None]
    if missing:
        print(f"skipped the header: {', '.join(missing)}, not installed")
        return
    flags = run(["pkg-config", "--cflags", "trdp-slot"], folder, PKG_CONFIG_LIBDIR=f"{folder}/usr/share/pkgconfig")
    Looks.look(flags.stdout.strip() == f"-I{folder}/usr/share/pkgconfig/../../include",
               f"pkg-config: {flags.stdout!r}, {flags.stderr!r}")
    (folder / "program.c").write_text(C_PROGRAM)
    look_at(["gcc", "-std=c99", "-Wall", "-Werror", "-fsyntax-only", *flags.stdout.split(), "program.c"], folder, "")


def look_at_page(folder: pathlib.Path, tool: str) -> None:
    """Compares the options of a tool's manual page with those of its help, where each has a line of its own."""
    page = gzip.decompress((folder / f"usr/share/man/man1/{tool}.1.gz").read_bytes()).decode().replace("\\-", "-")
    described = set(re.findall(r"^\.TP\n\.B.*?(--[a-z-]+)", page, re.MULTILINE))
    named = set(re.findall(r"--[a-z-]+", page))
    ran = run([sys.executable, f"usr/bin/{tool}", "--help"], folder, PYTHONPATH=f"{folder}/{MODULES}")
    helped = set(re.findall(r"^  (?:-\w, )?(--[a-z-]+)", ran.stdout, re.MULTILINE))
    Looks.look(described == named == helped,
               f"{tool}: of its page {sorted(described)}, named there {sorted(named)}, of its help {sorted(helped)}")


def look_at_proof(folder: pathlib.Path, program: pathlib.Path) -> None:
    """Looks whether the package says what the program was proved of."""
    record = program.with_name(f"{program.name}.record")
    wanted = record.read_text() if record.exists() else "not proved\n"
    wanted = wanted if wanted.startswith("kind proved\n") else "not proved\n"
    found = (folder / "usr/share/doc/trdpd/proof").read_text()
    Looks.look(found == wanted, f"proof: {found!r}, and not {wanted!r}")


def look_at_installed_node(folder: pathlib.Path) -> None:
    """Looks whether an application and an operator can call the node of a fresh install, as the unit starts it."""
    unit = (folder / "usr/lib/systemd/system/trdpd.service").read_text()
    words = re.findall(r"^ExecStart=/usr/bin/trdpd daemon /etc/trdpd/node.toml .*(--controls \S+)$", unit, re.MULTILINE)
    Looks.look(words == ["--controls /run/trdpd"], f"the unit serves control sockets by {words}")
    ran = run(["usr/bin/trdpd", "check", "etc/trdpd/node.toml", *" ".join(words).split()], folder)
    ports = re.findall(r"^(operator|slot \d+) at (\S+?):? ?", ran.stdout, re.MULTILINE)
    Looks.look(ran.returncode == 0 and "warning" not in ran.stdout
               and [it[0] for it in ports] == ["operator", "slot 0", "slot 1"], f"the installed node: {ran.stdout!r}")


def look_into(folder: pathlib.Path) -> None:
    """Uses what is unpacked."""
    modules = f"{folder}/{MODULES}"
    look_at(["usr/bin/trdpd", "check", "etc/trdpd/node.toml"], folder, "node 127.0.0.1: process data at port 17224")
    look_at_installed_node(folder)
    for tool in ("trdp-dump", "trdp-import", "trdp-lua", "trdp-send", "trdp-structs", "trdp-view"):
        look_at([sys.executable, f"usr/bin/{tool}", "--help"], folder, f"usage: {tool} ", PYTHONPATH=modules)
        look_at_page(folder, tool)
    look_at([sys.executable, "-c", "import trdp_slot"], folder, "", PYTHONPATH=modules)
    look_at([sys.executable, "usr/bin/trdp-lua", DOOR], folder, "-- The datasets of comIds", PYTHONPATH=modules)
    look_at([sys.executable, "usr/bin/trdp-structs", DOOR], folder, "/* The datasets of door.toml", PYTHONPATH=modules)
    look_at([sys.executable, "usr/bin/trdp-import", DEVICE, "-o", "imported"], folder, "note: line 7, the name 'door-",
            PYTHONPATH=modules)
    if shutil.which("bash"):
        look_at(["bash", "-c", COMPLETE], folder, "--lease\nserve\n")
    else:
        print("skipped the completion: bash, not installed")
    look_at_header(folder)


def look_at_refusals(folder: pathlib.Path, program: str) -> None:
    """Looks what is said where there is nothing to pack, and whether nothing is written then."""
    script = folder / "run"
    cases = [(str(folder / "none"), f"{folder}/none isn't there: ./run prove proves and builds it, once"),
             (str(script), "the program isn't one for Linux on x86-64")]
    for path, why in cases:
        look_at_refusal(folder, path, why)
    for name, old, new, why in REFUSED:
        text = (folder / name).read_text()
        (folder / name).write_text(text.replace(old, new))
        look_at_refusal(folder, program, why)
        (folder / name).write_text(text)
    for moment in ("today", "8589934592"):
        why = f"SOURCE_DATE_EPOCH={moment}: a number of seconds is wanted, 8589934591 at most"
        look_at_refusal(folder, program, why, SOURCE_DATE_EPOCH=moment)


def look_at_refusal(folder: pathlib.Path, program: str, why: str, **changes: str) -> None:
    """Looks whether nothing is packed, with that reason, and nothing written."""
    ran = run(["./run", "package"], folder, TRDPD_PROGRAM=program, **changes)
    is_so = (ran.returncode, ran.stdout, ran.stderr) == (1, "", f"package: {why}\n") and not (folder / "out").exists()
    Looks.look(is_so, f"./run package: {ran.returncode}, {ran.stdout!r}, {ran.stderr!r}, and not {why!r}")


def look_at_words(folder: pathlib.Path) -> None:
    """Looks what ./run says where nothing is built."""
    asked, bare, packed = (run(f"./run {word}".split(), folder) for word in ("--help", "", "package"))
    named = re.findall(r"^  (\S+)", asked.stdout, re.MULTILINE)
    Looks.look((asked.returncode, asked.stderr, named) == (0, "", [*WORDS]), f"./run --help: {asked}")
    Looks.look((bare.returncode, bare.stdout, bare.stderr) == (2, "", asked.stdout), f"./run: {bare}")
    why = "run: a package has the proved program: ./run prove proves and builds it first, once\n"
    Looks.look((packed.returncode, packed.stdout, packed.stderr) == (4, "", why), f"./run package: {packed}")


def main(program: str = f"{TOP}/crates/trdpd/out/trdpd") -> int:
    program = os.path.abspath(program)
    with tempfile.TemporaryDirectory() as scratch:
        copies = [copy_to(pathlib.Path(scratch, name)) for name in ("one", "a longer one")]
        look_at_words(copies[0])
        look_at_refusals(copies[0], program)
        first, second = (pack(folder, program) for folder in copies)
        Looks.look(first == second, "two copies give other bytes")
        unpacked = pathlib.Path(scratch, "unpacked")
        unpack(first, unpacked)
        look_at_proof(unpacked, pathlib.Path(program))
        if unpacked.exists():
            look_into(unpacked)
    print(f"{Looks.made} looked at, {Looks.differ} differ")
    return 1 if Looks.differ else 0


if __name__ == "__main__":
    sys.exit(main(*sys.argv[1:]))
