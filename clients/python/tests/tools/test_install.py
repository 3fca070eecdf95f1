"""The client and the tools as pip installs them: a wheel of a copy of this folder, in an environment of its own.

Nothing is asked of a network, and nothing is left in this folder.
"""
from __future__ import annotations

import importlib.util
import os
import pathlib
import re
import shutil
import signal
import socket
import subprocess
import sys
import tempfile
import unittest
import urllib.request
import zipfile

from testing import PYTHON, TOP

sys.path.insert(0, str(TOP / "package"))
from version import SOURCE as VERSION_FILE  # noqa: E402
from version import program_version  # noqa: E402

TOOLS = ["trdp_dump", "trdp_import", "trdp_lua", "trdp_ports", "trdp_send", "trdp_structs",
         "trdp_telegram", "trdp_words"]
PACKAGES = ["trdp_device", "trdp_slot", "trdp_view"]
MISSING = [it for it in ("pip", "setuptools", "venv", "wheel") if importlib.util.find_spec(it) is None]
PORT_HOME = "127.0.8.23"
# The first telegram of comId 100 with the dataset 0a0b.
TELEGRAM = bytes.fromhex("00000000 01005064 00000064 00000000 00000000 00000002 00000000 00000000 00000000"
                         "ec179c94 0a0b0000")
PROGRAM = """\
from trdp_slot import Handle, Notified, Slot


def begin(config: str) -> Handle:
    with Slot(config, 0) as doors:
        doors.on(Notified, lambda told: print(told.value))
        return doors.publish(2101, "127.0.0.2:17224", dataset=5002, cycle_us=100_000)
"""
# What PROGRAM has wrong then, and what mypy says of it.
WRONG = ("cycle_us=100_000", 'cycle_us="soon"', 'incompatible type "str"; expected "int"')


def mypy() -> list[str] | None:
    """How mypy is called, where it is there."""
    if importlib.util.find_spec("mypy"):
        return [sys.executable, "-m", "mypy"]
    return ["mypy"] if shutil.which("mypy") else None


def run(words: list[str], folder: pathlib.Path) -> str:
    """What a command says that ends well, in a folder, for which this one isn't a place of modules."""
    # The time that the files of a wheel are said to be of.
    known = {name: it for name, it in os.environ.items() if name != "PYTHONPATH"} | {"SOURCE_DATE_EPOCH": "1767225600"}
    ran = subprocess.run(words, cwd=folder, env=known, capture_output=True, text=True, timeout=120)
    if ran.returncode:
        raise AssertionError(f"{' '.join(words)} ended with status {ran.returncode}\n{ran.stdout}{ran.stderr}")
    return ran.stdout


def copy(top: pathlib.Path) -> pathlib.Path:
    """Copies what a wheel is built of, where it has the same places below that folder. Answers where this folder is."""
    clients = top / "clients/python"
    shutil.copytree(PYTHON, clients, ignore=shutil.ignore_patterns("__pycache__", "build", "*.egg-info"))
    (top / VERSION_FILE).parent.mkdir(parents=True)
    shutil.copy(TOP / VERSION_FILE, top / VERSION_FILE)
    return clients


def build(top: pathlib.Path) -> pathlib.Path:
    """Builds a wheel of a copy in a new folder. Answers its path."""
    run([sys.executable, "-m", "pip", "wheel", "--no-index", "--no-build-isolation", "--no-deps", "--wheel-dir",
         str(top / "wheels"), str(copy(top))], top)
    [wheel] = (top / "wheels").iterdir()
    return wheel


@unittest.skipIf(MISSING, f"{' and '.join(MISSING)} not installed")
class Install(unittest.TestCase):
    """One wheel, and the environment that it is installed into."""

    folder: pathlib.Path
    wheel: pathlib.Path

    @classmethod
    def setUpClass(cls) -> None:
        folder = tempfile.TemporaryDirectory()
        cls.addClassCleanup(folder.cleanup)
        cls.folder = pathlib.Path(folder.name)
        cls.wheel = build(cls.folder / "first")
        run([sys.executable, "-m", "venv", "--without-pip", "installed"], cls.folder)
        run([sys.executable, "-m", "pip", "--python", cls.bin("python"), "install", "--no-index", "--no-deps",
             str(cls.wheel)], cls.folder)

    @classmethod
    def bin(cls, name: str) -> str:
        """A command of the environment."""
        return str(cls.folder / "installed/bin" / name)

    def test_two_builds_have_the_same_bytes(self) -> None:
        again = build(self.folder / "second")
        self.assertEqual((again.name, again.read_bytes()), (self.wheel.name, self.wheel.read_bytes()))

    def test_the_wheel_has_the_modules_and_says_that_they_have_types(self) -> None:
        with zipfile.ZipFile(self.wheel) as wheel:
            names = {it for it in wheel.namelist() if ".dist-info/" not in it}
        whole = {f"{it}/{file.name}" for it in PACKAGES for file in (PYTHON / it).glob("*.py")}
        whole |= {f"trdp_view/web/{file.name}" for file in (PYTHON / "trdp_view/web").iterdir()}
        self.assertEqual(names, whole | {f"{it}/py.typed" for it in PACKAGES} | {
            f"{it}/{file}" for it in TOOLS for file in ("__init__.py", "py.typed")})

    def test_the_modules_are_there_by_their_names(self) -> None:
        run([self.bin("python"), "-W", "error", "-c", f"import {', '.join([*PACKAGES, *TOOLS])}"], self.folder)
        where = run([self.bin("python"), "-c", "import trdp_slot; print(trdp_slot.__file__)"], self.folder)
        self.assertTrue(pathlib.Path(where).is_relative_to(self.folder / "installed"), where)

    def test_the_version_is_that_of_the_program(self) -> None:
        told = "import importlib.metadata; print(importlib.metadata.version('trdp-slot'))"
        version = run([self.bin("python"), "-c", told], self.folder).strip()
        self.assertEqual(version, program_version())

    def test_without_the_version_it_is_not_built(self) -> None:
        clients = copy(self.folder / "alone")
        version = self.folder / "alone" / VERSION_FILE
        for text, said in [("//! No version.\n", "has no line with the version"), (None, "No such file or directory")]:
            if text is None:
                version.unlink()
            else:
                version.write_text(text)
            ran = subprocess.run([sys.executable, "setup.py", "--version"], cwd=clients, capture_output=True, text=True)
            self.assertEqual((ran.returncode, ran.stdout), (1, ""))
            self.assertRegex(ran.stderr, f"^setup.py: {re.escape(str(version))}.*{said}")

    def test_the_page_is_served(self) -> None:
        """The page of trdp-view is installed with it."""
        line = [self.bin("trdp-view"), PORT_HOME, "--pd-port", "18224", "--md-port", "18225"]
        with subprocess.Popen(line, cwd=self.folder, stdout=subprocess.PIPE, text=True) as view:
            assert view.stdout is not None
            address = view.stdout.readline().strip()
            for name in ("", "view.js", "dygraph.min.js"):
                with urllib.request.urlopen(address + name) as answer:
                    self.assertEqual(answer.status, 200)
            view.send_signal(signal.SIGINT)

    def test_help(self) -> None:
        for name in ("trdp-dump", "trdp-import", "trdp-lua", "trdp-send", "trdp-structs", "trdp-view"):
            self.assertTrue(run([self.bin(name), "--help"], self.folder).startswith(f"usage: {name} "))

    def test_a_tool_says_its_name(self) -> None:
        for name, status in (("trdp-dump", 2), ("trdp-import", 2), ("trdp-lua", 1), ("trdp-send", 2),
                             ("trdp-structs", 1), ("trdp-view", 1)):
            line = [self.bin(name), "nowhere"]
            ran = subprocess.run(line, cwd=self.folder, capture_output=True, text=True, timeout=20)
            self.assertEqual((ran.returncode, ran.stderr[:len(name) + 2]), (status, f"{name}: "))

    def test_a_telegram_is_sent(self) -> None:
        with socket.socket(socket.AF_INET, socket.SOCK_DGRAM) as port:
            port.bind((PORT_HOME, 0))
            port.settimeout(10)
            place = f"{PORT_HOME}:{port.getsockname()[1]}"
            run([self.bin("trdp-send"), place, "--com-id", "100", "--data", "0a0b"], self.folder)
            self.assertEqual(port.recv(100), TELEGRAM)

    @unittest.skipUnless(mypy(), "mypy isn't there")
    def test_mypy_finds_the_types(self) -> None:
        program = self.folder / "doors.py"
        line = [*(mypy() or []), "--strict", "--cache-dir=/dev/null", "--python-executable", self.bin("python"),
                str(program)]
        program.write_text(PROGRAM)
        run(line, self.folder)
        right, wrong, said = WRONG
        program.write_text(PROGRAM.replace(right, wrong))
        with self.assertRaises(AssertionError) as fault:
            run(line, self.folder)
        self.assertIn(said, str(fault.exception))
