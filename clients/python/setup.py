"""What pyproject.toml can't say: the version, which is the program's, and that each module becomes a package.

A module of one file can't declare to mypy that it has types, as a package can, by a file py.typed in it (PEP 561). So
in the wheel each module of the tools is the package of one file that has its name. `import trdp_dump` is the same. The
client is a package already.

The version is read here, and not by package/version.py, so that a wheel needs this folder and the program's one file.
"""
from __future__ import annotations

import os
import pathlib
import re

from setuptools import setup
from setuptools.command.build_py import build_py

VERSION_FILE = pathlib.Path(__file__).resolve().parent.parent.parent / "crates/trdpd/src/version.rt"


def version() -> str:
    """The version of the program. Ends with a sentence where that isn't found."""
    try:
        found = re.search(r'^pub const VERSION: &str = "([0-9.]+)";$', VERSION_FILE.read_text(), re.MULTILINE)
    except OSError as fault:
        raise SystemExit(f"setup.py: {fault.filename}: {fault.strerror}: the whole project has to be there, as in a "
                         "checkout") from None
    if not found:
        raise SystemExit(f"setup.py: {VERSION_FILE} has no line with the version")
    return found[1]


class Packages(build_py):
    """Makes a package of each module of the tools."""

    def get_module_outfile(self, build_dir: str, package: list[str], module: str) -> str:
        """Where the file of a module goes."""
        if any(package):
            return os.path.join(build_dir, *package, f"{module}.py")
        return os.path.join(build_dir, module, "__init__.py")

    def run(self) -> None:
        """Builds the packages, and says of each that it has types. trdp_slot says so itself."""
        super().run()
        if not self.editable_mode:
            for module in self.py_modules:
                self.copy_file("trdp_slot/py.typed", os.path.join(self.build_lib, module))


setup(version=version(), cmdclass={"build_py": Packages})
