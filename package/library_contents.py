"""What is in the package of the node's library for C: each file with its place on the machine."""
from __future__ import annotations

import pathlib
import tempfile

from contents import IN_C, Refused, changelog, copyright_text, depends, filled, text_of
from deb import File, sums
from shared import NAME, NUMBER, NotMade, shared_library

PACKAGE = "libtrdp-node-dev"
DOC = f"usr/share/doc/{PACKAGE}"
LIBRARIES = "usr/lib/x86_64-linux-gnu"
# What a program is compiled with that links the archive.
MEMORY = "usr/share/trdp-node/trdp_node_alloc.c"
EXAMPLES = ("loop.c", "pool.c")


def shared_bytes(archive: pathlib.Path) -> bytes:
    """The shared library of an archive."""
    with tempfile.TemporaryDirectory() as folder:
        try:
            return shared_library(archive, pathlib.Path(folder)).read_bytes()
        except NotMade as why:
            raise Refused(str(why)) from None


def library_files(archive: bytes, shared: bytes, proof: str, number: str, day: str) -> list[File]:
    """All files of the package, in the order of their paths. `proof` says what the library was proved of."""
    major = number.partition(".")[0]
    found = [
        File("usr/include/trdp_node.h", text_of("clients/c/trdp_node.h").encode()),
        File("usr/include/trdp_node_udp.h", text_of("clients/c/trdp_node_udp.h").encode()),
        File(f"{LIBRARIES}/libtrdp_node.a", archive),
        File(f"{LIBRARIES}/{NAME}.{number}", shared),
        File(f"{LIBRARIES}/{NAME}.{NUMBER}", b"", target=f"{NAME}.{number}"),
        File(f"{LIBRARIES}/{NAME}", b"", target=f"{NAME}.{NUMBER}"),
        File(MEMORY, text_of("clients/c/trdp_node_alloc.c").encode()),
        File(f"{DOC}/proof", proof.encode()),
        File(f"{DOC}/EMBED.md", text_of("docs/EMBED.md").encode()),
        File(f"{DOC}/copyright", copyright_text().encode()),
        File(f"{DOC}/changelog.gz", changelog(number, day)),
        File(f"usr/share/lintian/overrides/{PACKAGE}", filled(f"{PACKAGE}.lintian-overrides").encode()),
    ]
    found += [File(f"{DOC}/examples/{it}", text_of(f"examples/embed/{it}").encode()) for it in EXAMPLES]
    for place, name in (("pkgconfig/trdp-node.pc", "trdp-node.pc.in"),
                        ("cmake/TrdpNode/TrdpNodeConfig.cmake", "TrdpNodeConfig.cmake"),
                        ("cmake/TrdpNode/TrdpNodeConfigVersion.cmake", "TrdpSlotConfigVersion.cmake.in")):
        found.append(File(f"{LIBRARIES}/{place}", filled(name, IN_C, VERSION=number, MAJOR=major).encode()))
    return sorted(found)


def library_control(files: list[File], shared: bytes, number: str) -> list[File]:
    """The control file of the package, its sums, and what tells dpkg of the shared library."""
    size = str(sum(-(-len(file.content) // 1024) for file in files))
    control = filled(f"{PACKAGE}.control", VERSION=number, SIZE=size, DEPENDS=depends(shared))
    return [File("control", control.encode()), File("md5sums", sums(files).encode()),
            File("shlibs", f"libtrdp_node {NUMBER} {PACKAGE} (>= {number})\n".encode()),
            File("triggers", b"activate-noawait ldconfig\n")]
