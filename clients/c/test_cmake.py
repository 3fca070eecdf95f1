#!/usr/bin/env python3
"""The header as CMake installs it: a program finds it by pkg-config, and by find_package.

    clients/c/test_cmake.py

All is in a temporary folder. Ends with a line as `cmake: 5 passed, 0 failed`, and with status 1 where one fails.
"""
from __future__ import annotations

import os
import pathlib
import shutil
import subprocess
import sys
import tempfile
import unittest

HERE = pathlib.Path(__file__).resolve().parent
sys.path.insert(0, str(HERE.parent.parent / "package"))
from version import program_version  # noqa: E402

INSTALLED = {"include/trdp_slot.h", "share/cmake/TrdpSlot/TrdpSlotConfig.cmake",
             "share/cmake/TrdpSlot/TrdpSlotConfigVersion.cmake", "share/pkgconfig/trdp-slot.pc"}
# Compilers, the language of each, and what has them take that language alone.
COMPILERS = {"gcc": ("c", "-std=c99"), "clang": ("c", "-std=c99"), "g++": ("c++", "-std=c++11"),
             "clang++": ("c++", "-std=c++11")}
PROGRAM = """\
#include <trdp_slot.h>

#include <stdio.h>

int main(void)
{
    uint32_t address = 0;
    bool is_one = trdp_slot_address("10.0.0.2", &address);
    return printf("%d %x\\n", is_one, (unsigned)address) < 0;
}
"""
SAID = "1 a000002\n"
PROJECT = """\
cmake_minimum_required(VERSION 3.14)
project(Program LANGUAGES C CXX)
find_package(TrdpSlot {version} REQUIRED)
add_executable(in_c program.c)
add_executable(in_cpp program.cpp)
target_link_libraries(in_c TrdpSlot::trdp_slot)
target_link_libraries(in_cpp TrdpSlot::trdp_slot)
"""


def run(*words: object, **known: str) -> subprocess.CompletedProcess[str]:
    """Runs a command, with these in its environment."""
    line = [str(it) for it in words]
    return subprocess.run(line, env=os.environ | known, capture_output=True, text=True, timeout=600)


@unittest.skipUnless(shutil.which("cmake") and shutil.which("make"), "cmake isn't there, or make")
class Install(unittest.TestCase):
    """An installed tree, which was moved to another place, and programs that find it."""

    folder: pathlib.Path
    tree: pathlib.Path

    @classmethod
    def setUpClass(cls) -> None:
        folder = tempfile.TemporaryDirectory()
        cls.addClassCleanup(folder.cleanup)
        cls.folder = pathlib.Path(folder.name)
        cls.said("cmake", "-S", HERE, "-B", cls.folder / "build")
        cls.said("cmake", "--install", cls.folder / "build", "--prefix", cls.folder / "first")
        cls.tree = (cls.folder / "first").rename(cls.folder / "moved")
        for name in ("program.c", "program.cpp"):
            (cls.folder / name).write_text(PROGRAM)

    @classmethod
    def said(cls, *words: object, **known: str) -> str:
        """What a command says that ends well."""
        ran = run(*words, **known)
        if ran.returncode:
            raise AssertionError(f"{' '.join(map(str, words))}\n{ran.stdout}{ran.stderr}")
        return ran.stdout

    def test_what_is_installed(self) -> None:
        self.assertEqual({str(it.relative_to(self.tree)) for it in self.tree.rglob("*") if it.is_file()}, INSTALLED)
        self.assertEqual((self.tree / "include/trdp_slot.h").read_bytes(), (HERE / "trdp_slot.h").read_bytes())

    @unittest.skipUnless(shutil.which("pkg-config"), "pkg-config isn't there")
    def test_pkg_config(self) -> None:
        asked, known = ["pkg-config", "trdp-slot"], {"PKG_CONFIG_PATH": str(self.tree / "share/pkgconfig")}
        version = self.said(*asked, "--modversion", **known).strip()
        self.assertEqual(version, program_version())
        flags = self.said(*asked, "--cflags", **known).split()
        program = self.folder / "program"
        for compiler in filter(shutil.which, COMPILERS):
            language, standard = COMPILERS[compiler]
            self.said(compiler, standard, "-Wall", "-Wextra", "-Werror", *flags, "-o", program, "-x", language,
                      self.folder / "program.c")
            self.assertEqual(self.said(program), SAID, compiler)

    def configured(self, version: str) -> subprocess.CompletedProcess[str]:
        """Configures a project that wants that version."""
        (self.folder / "CMakeLists.txt").write_text(PROJECT.format(version=version))
        return run("cmake", "-S", self.folder, "-B", self.folder / "wants", f"-DCMAKE_PREFIX_PATH={self.tree}")

    def test_find_package(self) -> None:
        ran = self.configured("1.0")
        self.assertEqual(ran.returncode, 0, ran.stderr)
        self.said("cmake", "--build", self.folder / "wants")
        for name in ("in_c", "in_cpp"):
            self.assertEqual(self.said(self.folder / "wants" / name), SAID)

    def test_another_version_is_not_found(self) -> None:
        ran = self.configured("2.0")
        self.assertNotEqual(ran.returncode, 0)
        self.assertIn('compatible with requested version "2.0"', ran.stderr)

    def test_without_the_version_nothing_is_made(self) -> None:
        clients = self.folder / "alone/clients/c"
        shutil.copytree(HERE, clients)
        ran = run("cmake", "-S", clients, "-B", self.folder / "none")
        self.assertNotEqual(ran.returncode, 0)
        said = " ".join(ran.stderr.split())
        self.assertIn("/crates/trdpd/src/version.rt isn't there: the whole project has to be", said)


def main() -> int:
    """Exit status 1 where a test fails."""
    ran = unittest.main(exit=False).result
    failed = len(ran.failures) + len(ran.errors)
    if ran.skipped:
        print(f"cmake: {len(ran.skipped)} skipped: {', '.join(sorted({why for _, why in ran.skipped}))}")
    print(f"cmake: {ran.testsRun - failed - len(ran.skipped)} passed, {failed} failed")
    return 1 if failed else 0


if __name__ == "__main__":
    sys.exit(main())
