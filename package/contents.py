"""What is in the package: each file with its place on the machine, made of the files of the project."""
from __future__ import annotations

import pathlib
import re
from collections.abc import Iterator

from deb import File, sums, zipped
from elf import NoProgram, needs_of

TOP = pathlib.Path(__file__).resolve().parent.parent
OWN, IN_C = TOP / "package" / "files", TOP / "clients" / "c"
DOC = "usr/share/doc/trdpd"
MODULES = "usr/lib/python3/dist-packages"
PLUGINS = "usr/lib/x86_64-linux-gnu/wireshark/plugins"
# The tools that are commands, and the module of each.
TOOLS = {"trdp-dump": "trdp_dump", "trdp-import": "trdp_import", "trdp-lua": "trdp_lua", "trdp-send": "trdp_send",
         "trdp-structs": "trdp_structs", "trdp-view": "trdp_view"}
# The folders that are packages of Python, each with its types, and what is in them beside modules.
FOLDERS = {"trdp_device": (), "trdp_slot": (), "trdp_view": ("web/*",)}
# Debian's packages of the libraries, and how their versions begin in an ELF file.
PACKAGES = {
    "libc.so.6": ("libc6", "GLIBC_"), "libm.so.6": ("libc6", "GLIBC_"), "ld-linux-x86-64.so.2": ("libc6", "GLIBC_"),
    "libgcc_s.so.1": ("libgcc-s1", "GCC_"),
}
# The kit's crates that come without a text of a licence, as package/licences.txt says. The last two are parts of its
# standard library.
WITHOUT_LICENCE = ("libc", "os", "core", "std_alloc")
# What of examples/ only runs in the project's folder.
RUNNERS = re.compile(r"(.*/)?(play|play(_\w+)?\.py|lossy/.*|__pycache__/.*)")
# The lines of the unit in examples/ that give the control sockets of two applications to their groups.
GROUPS = re.compile(r"^# The daemon makes its files in the order .*?(?=^Restart=)", re.MULTILINE | re.DOTALL)
UNIT = "examples/systemd/trdpd.service"


class Refused(Exception):
    """Why there is no package."""


def text_of(path: str) -> str:
    """A text file of the project."""
    try:
        return (TOP / path).read_text("utf-8")
    except OSError as fault:
        raise Refused(f"{path}: {fault.strerror}") from None


def changed(path: str, *changes: tuple[str, str]) -> str:
    """A text file of the project, with one text in place of another one, which is there once."""
    text = text_of(path)
    for old, new in changes:
        if text.count(old) != 1:
            raise Refused(f"{path} has {old!r} {text.count(old)} times, and not once")
        text = text.replace(old, new)
    return text


def filled(name: str, folder: pathlib.Path = OWN, **words: str) -> str:
    """A file of that folder, with the words in place of their names between two @."""
    text = (folder / name).read_text("utf-8")
    for word, value in words.items():
        text = text.replace(f"@{word}@", value)
    return text


def number_of(version_need: str, head: str) -> tuple[int, ...]:
    """The number of a version that a program needs of a library."""
    number = version_need.removeprefix(head)
    if not re.fullmatch(r"[0-9]+(\.[0-9]+)*", number):
        raise Refused(f"the program needs {version_need}, which is no version of a package")
    return tuple(map(int, number.split(".")))


def depends(program: bytes) -> str:
    """The packages of the libraries that the program needs, each at the latest version that it needs."""
    try:
        needs = needs_of(program)
    except NoProgram:
        raise Refused("the program isn't one for Linux on x86-64") from None
    found: dict[str, tuple[int, ...]] = {}
    for library, versions in needs.items():
        if library not in PACKAGES:
            raise Refused(f"the program needs {library}, and no package of it is known")
        package, head = PACKAGES[library]
        found[package] = max([found.get(package, (0,)), *(number_of(it, head) for it in versions)])
    return ", ".join(f"{package} (>= {'.'.join(map(str, latest))})" for package, latest in sorted(found.items()))


def unit_parts() -> tuple[str, str]:
    """The unit as it is installed, and the drop-in that gives control sockets to two applications."""
    text = changed(UNIT, ("/usr/local/bin/trdpd", "/usr/bin/trdpd"), (" useradd --system --user-group trdpd", ""),
                   ("kill -0 below", "kill -0 in a drop-in"), ("\nAfter=", "\nDocumentation=man:trdpd(1)\nAfter="))
    groups = GROUPS.findall(text)
    if len(groups) != 1 or "[Unit]\n" not in text:
        raise Refused(f"{UNIT} has no lines that give control sockets to groups")
    rest = text.replace(groups[0], "")
    return filled("unit_head.txt") + rest[rest.index("[Unit]\n"):], filled("drop_in_head.txt") + groups[0]


def kit_crates() -> set[str]:
    """The crates of the kit that the project's crates use."""
    lines = [line.split("#")[0].partition(":") for line in text_of("crates.txt").splitlines()]
    own = {name.split()[0] for name, _, _ in lines if name.strip()}
    return {name for _, _, below in lines for name in below.split()} - own


def copyright_text() -> str:
    """Who may do what with the package: the project's file LICENSE, if there is one, and those of what is linked in."""
    licences = text_of("package/licences.txt")
    listed = re.findall(r"^(\w+) [\d.]+, ", licences, re.MULTILINE)
    missing = sorted(kit_crates() - {*listed, *WITHOUT_LICENCE})
    if missing:
        raise Refused(f"package/licences.txt doesn't name {', '.join(missing)}")
    granted = text_of("LICENSE") if (TOP / "LICENSE").exists() else filled("no_licence.txt")
    return f"trdpd, a communication node for the Train Real-time Data Protocol\n\n{granted}\n{licences}"


def changelog(number: str, day: str) -> bytes:
    """The changelog that Debian's tools expect of the version."""
    return zipped(filled("changelog", VERSION=number, DAY=day).encode())


def document_files() -> Iterator[File]:
    """The project's documents and examples, as they are there."""
    pages = [it for pattern in ("*.md", "docs/[A-Z]*.md", "docs/*.svg", "docs/*.png") for it in TOP.glob(pattern)]
    paths = [*pages, *(TOP / "examples").rglob("*")]
    for path in paths:
        name = path.relative_to(TOP).as_posix()
        if path.is_file() and name != UNIT and not RUNNERS.fullmatch(name):
            yield File(f"{DOC}/{name}", path.read_bytes())
    yield File(f"{DOC}/{UNIT}", changed(UNIT, ("/usr/local/bin/trdpd", "/usr/bin/trdpd")).encode())


def client_files(number: str) -> Iterator[File]:
    """The clients in C and Python, the tools, and the dissector."""
    yield File("usr/include/trdp_slot.h", text_of("clients/c/trdp_slot.h").encode())
    major = number.partition(".")[0]
    for place, name in (("pkgconfig/trdp-slot.pc", "trdp-slot.pc.in"),
                        ("cmake/TrdpSlot/TrdpSlotConfig.cmake", "TrdpSlotConfig.cmake"),
                        ("cmake/TrdpSlot/TrdpSlotConfigVersion.cmake", "TrdpSlotConfigVersion.cmake.in")):
        yield File(f"usr/share/{place}", filled(name, IN_C, VERSION=number, MAJOR=major).encode())
    python = TOP / "clients" / "python"
    for folder, others in FOLDERS.items():
        for path in [it for pattern in ("*.py", "py.typed", *others) for it in (python / folder).glob(pattern)]:
            yield File(f"{MODULES}/{path.relative_to(python)}", path.read_bytes())
    for path in python.glob("trdp_*.py"):
        # Only a folder can say that a module has types, by its file py.typed. What is imported from it is no command.
        module = path.read_text("utf-8").removeprefix("#!/usr/bin/env python3\n")
        yield File(f"{MODULES}/{path.stem}/__init__.py", module.encode())
        yield File(f"{MODULES}/{path.stem}/py.typed", b"")
    for tool, module in TOOLS.items():
        yield File(f"usr/bin/{tool}", filled("tool", MODULE=module).encode(), is_program=True)
    for name in ("trdp.lua", "trdp_sessions.lua", "trdp_values.lua"):
        yield File(f"{PLUGINS}/{name}", text_of(f"wireshark/{name}").encode())


def page_files() -> Iterator[File]:
    """The manual pages of the program and the tools. A path of the project becomes that on the machine."""
    for name in ("trdpd", *TOOLS):
        page = re.sub(r"\b(docs|examples)/", rf"/{DOC}/\1/", text_of(f"docs/{name}.1"))
        page = page.replace("wireshark/trdp.lua", f"/{PLUGINS}/trdp.lua")
        yield File(f"usr/share/man/man1/{name}.1.gz", zipped(page.encode()))


def program_files(program: bytes) -> Iterator[File]:
    """The program, its unit with a drop-in and a user, its completion, and its configuration."""
    unit, drop_in = unit_parts()
    yield File("usr/bin/trdpd", program, is_program=True)
    yield File("usr/lib/systemd/system/trdpd.service", unit.encode())
    yield File(f"{DOC}/{UNIT}.d/applications.conf", drop_in.encode())
    yield File("usr/lib/sysusers.d/trdpd.conf", filled("trdpd.sysusers").encode())
    yield File("usr/share/bash-completion/completions/trdpd", filled("trdpd.bash").encode())
    settings = changed("examples/node.toml", ('address = "10.0.0.1"', 'address = "127.0.0.1"'))
    yield File("etc/trdpd/node.toml", settings.encode())


def package_files(program: bytes, proof: str, number: str, day: str) -> list[File]:
    """All files of the package, in the order of their paths. `proof` says what the program was proved of."""
    found = [*program_files(program), *client_files(number), *page_files(), *document_files()]
    found.append(File(f"{DOC}/proof", proof.encode()))
    found.append(File(f"{DOC}/copyright", copyright_text().encode()))
    found.append(File(f"{DOC}/changelog.gz", changelog(number, day)))
    found.append(File("usr/share/lintian/overrides/trdpd", filled("lintian-overrides").encode()))
    return sorted(found)


def control_files(files: list[File], program: bytes, number: str) -> list[File]:
    """The control file of the package, its lists of files, and its scripts of installation and removal."""
    size = str(sum(-(-len(file.content) // 1024) for file in files))
    control = filled("control", VERSION=number, SIZE=size, DEPENDS=depends(program))
    found = [File("control", control.encode()), File("md5sums", sums(files).encode())]
    found.append(File("conffiles", b"/etc/trdpd/node.toml\n"))
    found += [File(name, filled(name).encode(), is_program=True) for name in ("postinst", "prerm", "postrm")]
    return found
