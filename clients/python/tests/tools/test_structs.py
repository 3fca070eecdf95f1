"""trdp_structs.py: the header and the dataclasses that it writes, for a compiler, for mypy and for the client."""
from __future__ import annotations

import contextlib
import importlib.util
import io
import pathlib
import shutil
import subprocess
import sys
import tempfile
import types
import unittest

import trdp_structs
from testing import PYTHON, TOP
from trdp_slot import Datasets

SMALL = """
[[dataset]]
id = 5003
name = "car"
element = [
    { type = "UINT16", name = "doors in use" },
    { type = 5002, size = 0, name = "doors" },
    { type = "UINT32", as = "REAL32", name = "speed", unit = "km/h" },
    { type = "CHAR8", size = 8, name = "class" },
    { type = "TIMEDATE48" },
]
[[dataset]]
id = 5002
name = "door"
element = [
    { type = "BITSET8", as = "ANTIVALENT8", name = "locked" },
    { type = "INT16", size = 2, name = "gap", unit = "m", scale = 0.001, offset = -1 },
]
"""
HEADER = """\
/* The datasets of small.toml, for trdp_slot.h. Written by trdp-structs. */
#ifndef TRDP_STRUCTS_SMALL_TOML_H
#define TRDP_STRUCTS_SMALL_TOML_H

#include "trdp_slot.h"

/* Dataset 5002. */
struct door {
    uint8_t locked; /* 1 is false, 2 is true */
    int16_t gap[2]; /* m: raw * 0.001 - 1 */
};

static const uint32_t door_number = 5002;
static const struct trdp_slot_element door_elements[] = {
    TRDP_SLOT_ONE(struct door, locked, TRDP_SLOT_BOOL8),
    TRDP_SLOT_ARRAY(struct door, gap, TRDP_SLOT_INT16) };
static const struct trdp_slot_dataset door_dataset =
    TRDP_SLOT_DATASET(struct door, door_elements);

/* Dataset 5003. */
/* the name 'doors in use' is written doors_in_use */
/* the name 'class' is written class_ */
struct car {
    uint16_t doors_in_use;
    struct door doors[64];
    float speed; /* km/h */
    char class_[8];
    struct trdp_slot_timedate48 element_4;
};

static const uint32_t car_number = 5003;
static const struct trdp_slot_element car_elements[] = {
    TRDP_SLOT_ONE(struct car, doors_in_use, TRDP_SLOT_UINT16),
    TRDP_SLOT_NESTED_COUNTED(struct car, doors, &door_dataset),
    TRDP_SLOT_ONE(struct car, speed, TRDP_SLOT_REAL32),
    TRDP_SLOT_ARRAY(struct car, class_, TRDP_SLOT_CHAR8),
    TRDP_SLOT_ONE(struct car, element_4, TRDP_SLOT_TIMEDATE48) };
static const struct trdp_slot_dataset car_dataset =
    TRDP_SLOT_DATASET(struct car, car_elements);

#endif
"""
MODULE = '''\
# The datasets of small.toml as dataclasses, for trdp_slot. Written by trdp-structs.
from __future__ import annotations

from collections.abc import Mapping
from dataclasses import dataclass, field
from typing import Any, ClassVar

from trdp_slot import TimeDate48


@dataclass
class door:
    """Dataset 5002."""

    trdp_dataset: ClassVar[int] = 5002
    trdp_elements: ClassVar[Mapping[str, str | int]] = {
        'locked': 'locked',
        'gap': 'gap',
    }
    trdp_classes: ClassVar[Mapping[str, Any]] = {}

    locked: bool | int = 0  # 1 is false, 2 is true
    gap: list[int] = field(default_factory=lambda: [0] * 2)  # m: raw * 0.001 - 1


# the name 'doors in use' is written doors_in_use
# the name 'class' is written class_
@dataclass
class car:
    """Dataset 5003."""

    trdp_dataset: ClassVar[int] = 5003
    trdp_elements: ClassVar[Mapping[str, str | int]] = {
        'doors': 'doors',
        'speed': 'speed',
        'class_': 'class',
        'element_4': 4,
    }
    trdp_classes: ClassVar[Mapping[str, Any]] = {
        'doors': door,
    }

    doors: list[door] = field(default_factory=list)
    speed: float = 0.0  # km/h
    class_: str | list[int] = ""
    element_4: TimeDate48 = TimeDate48(0, 0)
'''
# Names and units that a language could stumble over. The elements of dataset 1001 are of every basic type.
HARD = """
[[dataset]]
id = 1001
name = "stat"
element = [
    { type = "BOOL8", name = "struct" }, { type = "BITSET8", name = "range", unit = "/*" },
    { type = "BITSET8", as = "ANTIVALENT8", size = 2, name = "type" },
    { type = "CHAR8", name = "*/ int x; /*", unit = "*/" }, { type = "UTF16", size = 3, name = "list" },
    { type = "INT8", name = "field" }, { type = "INT16", name = "Field" }, { type = "INT32", name = "class" },
    { type = "INT64", size = 3, name = "__init__" }, { type = "UINT8", name = "stat" },
    { type = "UINT16", name = "errno", unit = "°C", scale = 1e-7 }, { type = "UINT32", name = "Tür" },
    { type = "UINT64", name = "2nd" }, { type = "UINT32", as = "REAL32", size = 2, name = "'\\"" },
    { type = "UINT64", as = "REAL64", name = "and" }, { type = "TIMEDATE32", name = "lambda" },
    { type = "TIMEDATE48", size = 2, name = "TimeDate48" }, { type = "TIMEDATE64", name = "\\\\" },
]
[[dataset]]
id = 1002
name = "door"
element = [
    { type = "UINT8", name = "trdp_dataset" }, { type = 1001, size = 0, name = "stat" },
    { type = 1001, size = 3, name = "Any" }, { type = 1001, name = "door" }, { type = 1001, name = "other" },
]
[[dataset]]
id = 1003
name = "Door"
element = [{ type = 1002, name = "door" }, { type = "UINT32" }, { type = "CHAR8", size = 0 }, { type = 1002, size = 2 }]
[[dataset]]
id = 4294967295
element = [{ type = 1003, size = 2 }, { type = "UINT8" }, { type = "BOOL8", size = 0 }]
[[dataset]]
id = 1004
name = "uint8_t"
element = [{ type = "UINT8", name = "uint8_t", unit = "\\u202e" }, { type = "UINT8", name = "st_mtime" }]
[[dataset]]
id = 1005
name = "trdp_slot_value"
element = [{ type = 1004 }]
[[dataset]]
id = 1006
name = "sockaddr"
element = [{ type = 1005 }]
"""
STRICT = "-Wall -Wextra -Wpedantic -Wconversion -Wsign-conversion -Wshadow -Werror -fsyntax-only".split()
COMPILERS = {"gcc": ("c99", "c11", "gnu99"), "clang": ("c99", "gnu17"), "g++": ("c++11", "c++2b"),
             "clang++": ("c++11", "c++2b")}


def run(*words: str) -> tuple[int, str, str]:
    """The status of the tool, and what it writes to standard output and to standard error."""
    out, errors = io.StringIO(), io.StringIO()
    with contextlib.redirect_stdout(out), contextlib.redirect_stderr(errors):
        try:
            status = trdp_structs.main(list(words))
        except SystemExit as end:
            status = int(end.code or 0)
    return status, out.getvalue(), errors.getvalue()


class Structs(unittest.TestCase):
    """A folder with configurations, of which the tool writes structs and dataclasses."""

    def setUp(self) -> None:
        folder = tempfile.TemporaryDirectory()
        self.addCleanup(folder.cleanup)
        self.folder = pathlib.Path(folder.name)
        self.small = self.file("small.toml", SMALL)
        self.hard = self.file("hard.toml", HARD)

    def file(self, name: str, text: str) -> str:
        """The path of a file with that text."""
        path = self.folder / name
        path.write_text(text)
        return str(path)

    def module(self, config: str) -> types.ModuleType:
        """The module of the dataclasses of a configuration."""
        path = self.file("made_values.py", run("--python", config)[1])
        spec = importlib.util.spec_from_file_location("made_values", path)
        assert spec is not None and spec.loader is not None
        module = importlib.util.module_from_spec(spec)
        sys.modules["made_values"] = module
        self.addCleanup(sys.modules.pop, "made_values")
        spec.loader.exec_module(module)
        return module

    def test_a_header(self) -> None:
        """A small configuration as a header, and with another room."""
        self.assertEqual(run(self.small), (0, HEADER, ""))
        self.assertEqual(run("--room", "3", self.small), (0, HEADER.replace("[64]", "[3]"), ""))

    def test_a_module(self) -> None:
        """A small configuration as dataclasses."""
        self.assertEqual(run("--python", self.small), (0, MODULE, ""))

    def test_names_without_a_name(self) -> None:
        """Datasets and elements without names get numbered ones, and equal names are told apart."""
        same = "".join(f"[[dataset]]\nid = {40 + index}\n{name}element = [{{ type = 8 }}]\n" for index, name in
                       enumerate(("", 'name = "Door"\n', 'name = "door"\n', 'name = "dataset_40"\n')))
        header = run(self.file("same.toml", same))[1]
        for line in ("struct dataset_40 {", "    uint8_t element_0;", "struct Door {", "struct door_2 {",
                     "/* the name 'door' is written door_2 */", "struct dataset_40_2 {",
                     "    TRDP_SLOT_ONE(struct door_2, element_0, TRDP_SLOT_UINT8) };"):
            self.assertIn(f"\n{line}\n", header)

    def test_hard_names_in_c(self) -> None:
        """Each compiler takes the header of hard names, without a warning, in C and in C++."""
        self.file("hard.h", run(self.hard)[1])
        uses = "".join(f"    (void){name}_dataset;\n    (void){name}_number;\n"
                       for name in ("stat_", "door", "Door_2", "dataset_4294967295", "sockaddr_"))
        program = f'#include "hard.h"\n#include "hard.h"\nint main(void)\n{{\n{uses}    return 0;\n}}\n'
        tried = 0
        for compiler, versions in COMPILERS.items():
            file = self.file("uses.cpp" if "+" in compiler else "uses.c", program)
            for version in versions if shutil.which(compiler) else ():
                words = [compiler, f"-std={version}", *STRICT, "-I", str(TOP / "clients/c"), file]
                ran = subprocess.run(words, capture_output=True, text=True, timeout=120)
                self.assertEqual((ran.returncode, ran.stderr), (0, ""), words)
                tried += 1
        if not tried:
            self.skipTest("there is no compiler")

    def test_hard_names_in_python(self) -> None:
        """The zero value of each dataclass has the bytes of the dataset's zero value, whatever the names are."""
        module = self.module(self.hard)
        datasets = Datasets.from_toml(self.hard)
        for name, number in {"stat": 1001, "door": 1002, "Door_2": 1003, "dataset_4294967295": 4294967295,
                             "sockaddr": 1006}.items():
            zero = getattr(module, name)()
            self.assertEqual(datasets.pack(number, zero), bytes(datasets.zero_size(number)), name)
            self.assertEqual(datasets.unpack(number, bytes(datasets.zero_size(number)), into=type(zero)), zero, name)

    @unittest.skipUnless(importlib.util.find_spec("mypy") or shutil.which("mypy"), "mypy isn't there")
    def test_hard_names_for_mypy(self) -> None:
        """mypy with its strictest settings finds nothing wrong with the dataclasses."""
        words = [sys.executable, "-m", "mypy"] if importlib.util.find_spec("mypy") else ["mypy"]
        path = self.file("made_values.py", run("--python", self.hard)[1])
        ran = subprocess.run([*words, "--strict", "--follow-imports=silent", "--cache-dir=/dev/null", path], cwd=PYTHON,
                             capture_output=True, text=True, timeout=120)
        self.assertEqual(ran.returncode, 0, ran.stdout + ran.stderr)

    def test_a_value(self) -> None:
        """A value in a dataclass has the bytes that are written here by hand, and comes back from them."""
        module = self.module(self.small)
        value = module.car(doors=[module.door(locked=True, gap=[1, -1])], speed=1.5, class_="TSI")
        data = bytes.fromhex("0001" "02 0001 ffff" "3fc00000" "5453490000000000" "000000000000")
        datasets = Datasets.from_toml(self.small)
        self.assertEqual(datasets.pack(5003, value), data)
        self.assertEqual(datasets.unpack(5003, data, into=module.car), value)


class Traps(unittest.TestCase):
    """What can't be meant, or can't be done."""

    def test_wrong_words(self) -> None:
        """Each is one sentence, and status 2."""
        traps: list[tuple[list[str], str]] = [
            ([], "required: FILE"), (["--jump", "x"], "unrecognized"), (["x", "y"], "unrecognized"),
            (["--room", "0", "x"], "'0' is no whole number of 1 to"), (["--room", "many", "x"], "'many' is no whole"),
            (["--room", "65389", "x"], "'65389' is no whole number of 1 to 65388"), (["--room"], "expected one"),
            (["--room", "3", "--python", "x"], "not allowed with"), (["--py", "x"], "unrecognized"),
        ]
        for words, sentence in traps:
            status, out, said = run(*words)
            self.assertEqual((status, out, said.count("\n")), (2, "", 1), words)
            self.assertTrue(said.startswith("trdp_structs.py: "), said)
            self.assertIn(sentence, said)

    def test_no_configuration(self) -> None:
        """A file that is no configuration is one sentence with its name, and status 1; nothing is written."""
        with tempfile.TemporaryDirectory() as folder:
            path = pathlib.Path(folder) / "bad.toml"
            for text, sentence in [
                ("[[", f"{path}: "), ("dataset = 3", f"{path}: dataset is no array"),
                ("[[dataset]]\nid = 40\nelement = [{ type = 41 }]", f"{path}: dataset 40, element 0: there is no"),
                ("[[dataset]]\nid = 40\nelement = [{ type = 8, name = 'a' }, { type = 8, name = 'a' }]",
                 f"{path}: dataset 40, element 1: "),
            ]:
                path.write_text(text)
                status, out, said = run(str(path))
                self.assertEqual((status, out, said.count("\n")), (1, "", 1), said)
                self.assertIn(sentence, said)
        status, out, said = run("gone.toml")
        self.assertEqual((status, out, said), (1, "", "trdp_structs.py: gone.toml: No such file or directory\n"))

    def test_no_datasets(self) -> None:
        """A configuration without datasets gives an empty header, and a sentence."""
        with tempfile.TemporaryDirectory() as folder:
            path = pathlib.Path(folder) / "none.toml"
            path.write_text("")
            status, out, said = run(str(path))
        self.assertEqual((status, said), (0, f"trdp_structs.py: {path} has no [[dataset]] tables\n"))
        self.assertTrue(out.endswith('#include "trdp_slot.h"\n\n#endif\n'), out)

    def test_as_a_program(self) -> None:
        """--help has the usage; a full disk is one sentence, and status 1."""
        words = [sys.executable, "-W", "error", str(PYTHON / "trdp_structs.py")]
        ran = subprocess.run([*words, "--help"], capture_output=True, text=True, timeout=60)
        self.assertEqual((ran.returncode, ran.stderr), (0, ""))
        self.assertTrue(ran.stdout.startswith("usage: trdp_structs.py "), ran.stdout)
        with open("/dev/full", "w") as full:
            ran = subprocess.run([*words, str(TOP / "examples/node.toml")], stdout=full, stderr=subprocess.PIPE,
                                 text=True, timeout=60)
        self.assertEqual((ran.returncode, ran.stderr), (1, "trdp_structs.py: No space left on device\n"))
