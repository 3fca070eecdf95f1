"""The archives of a package: a .tar.gz, and a .deb, which is an ar archive of two of tar. Same files, same bytes."""
from __future__ import annotations

import gzip
import hashlib
import io
import lzma
import tarfile
from collections.abc import Iterable
from typing import NamedTuple

AR_MAGIC = b"!<arch>\n"
# How hard the archives are packed: the next levels take three times as long, and save a tenth.
GZIP_LEVEL, XZ_LEVEL = 6, 3
# The mode of a folder and of a program, and that of any other file.
PROGRAM_MODE, FILE_MODE, LINK_MODE = 0o755, 0o644, 0o777


class File(NamedTuple):
    """A file of the package: its path from the root, what is in it, and whether it is run. A link has the path to which
    it leads, and nothing in it."""

    path: str
    content: bytes
    is_program: bool = False
    target: str = ""


def zipped(content: bytes, level: int = 9) -> bytes:
    """The same in gzip's format, without a name or a time."""
    return gzip.compress(content, level, mtime=0)


def entry(path: str, mode: int, moment: int) -> tarfile.TarInfo:
    """The head of a file or a folder in a tar archive."""
    head = tarfile.TarInfo(path)
    head.mode, head.mtime = mode, moment
    head.uname = head.gname = "root"
    return head


def folders_of(paths: Iterable[str]) -> set[str]:
    """The folders in which the paths are, at each level."""
    return {path[:end] for path in paths for end, sign in enumerate(path) if sign == "/"}


def tar(files: list[File], top: str, moment: int) -> bytes:
    """A tar archive of the files and of their folders, in the order of their paths, under a folder."""
    found: dict[str, File | None] = {folder: None for folder in ("", *folders_of(file.path for file in files))}
    found |= {file.path: file for file in files}
    out = io.BytesIO()
    with tarfile.open(fileobj=out, mode="w", format=tarfile.USTAR_FORMAT) as archive:
        for path, file in sorted(found.items()):
            mode = FILE_MODE if file and not file.is_program else PROGRAM_MODE
            head = entry(f"{top}/{path}".rstrip("/"), mode, moment)
            if file and file.target:
                head.type, head.linkname, head.mode = tarfile.SYMTYPE, file.target, LINK_MODE
                archive.addfile(head)
            elif file:
                head.size = len(file.content)
                archive.addfile(head, io.BytesIO(file.content))
            else:
                head.type = tarfile.DIRTYPE
                archive.addfile(head)
    return out.getvalue()


def tar_gz(files: list[File], top: str, moment: int) -> bytes:
    """The files under a folder, as a .tar.gz."""
    return zipped(tar(files, top, moment), GZIP_LEVEL)


def ar(members: dict[str, bytes], moment: int) -> bytes:
    """An ar archive of the members, in their order."""
    out = AR_MAGIC
    for name, content in members.items():
        out += f"{name:<16}{moment:<12}{0:<6}{0:<6}{0o100644:<8o}{len(content):<10}`\n".encode()
        out += content + b"\n" * (len(content) % 2)
    return out


def sums(files: list[File]) -> str:
    """The check sums by which dpkg notices a file that was changed."""
    return "".join(f"{hashlib.md5(file.content).hexdigest()}  {file.path}\n" for file in files if not file.target)


def deb(files: list[File], control: list[File], moment: int) -> bytes:
    """The files as a .deb, with the files that tell dpkg what to do with them."""
    members = {
        "debian-binary": b"2.0\n",
        "control.tar.gz": tar_gz(control, ".", moment),
        "data.tar.xz": lzma.compress(tar(files, ".", moment), preset=XZ_LEVEL),
    }
    return ar(members, moment)
