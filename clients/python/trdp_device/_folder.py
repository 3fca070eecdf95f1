"""Writes the files of a folder, all or none."""
from __future__ import annotations

import contextlib
import errno
import os
import pathlib
import shutil
import stat
import tempfile
from collections.abc import Mapping


def write_folder(path: str, files: Mapping[str, str]) -> None:
    """Writes the files of a folder, which must not exist or be empty. They are written beside it, and take its place
    once all are there. Raises OSError with the path, after which there is none of them."""
    try:
        write_beside(pathlib.Path(os.path.realpath(path)), files)
    except OSError as fault:
        raise OSError(fault.errno, fault.strerror, path) from None


def write_beside(folder: pathlib.Path, files: Mapping[str, str]) -> None:
    """The same, for a path without links."""
    mode = mode_of(folder)
    with contextlib.ExitStack() as stack:
        beside = pathlib.Path(tempfile.mkdtemp(prefix=".trdp-import-", dir=folder.parent))
        stack.callback(shutil.rmtree, beside, ignore_errors=True)
        for name, text in files.items():
            (beside / name).write_text(text, "utf-8", newline="\n")
        beside.chmod(mode)
        os.rename(beside, folder)


def mode_of(folder: pathlib.Path) -> int:
    """The mode of an empty folder, or of one that is made anew."""
    try:
        found = folder.stat()
    except FileNotFoundError:
        umask = os.umask(0)
        os.umask(umask)
        return 0o777 & ~umask
    if any(folder.iterdir()):
        raise OSError(errno.ENOTEMPTY, "it is not empty")
    return stat.S_IMODE(found.st_mode)
