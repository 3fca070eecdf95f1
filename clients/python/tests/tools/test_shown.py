"""Values as people read them, with names, units, REALs and texts: in the lines of trdp_dump.py and in the dissector."""
from __future__ import annotations

import os
import pathlib
import random
import re
import shutil
import socket
import subprocess
import tempfile
import tomllib
import unittest
from unittest import mock

import trdp_dump
import trdp_lua
import trdp_ports
import trdp_send
import trdp_telegram
import trdp_words
from test_tools import Dump
from testing import SEED, TOP
from trdp_slot import Datasets

SOURCE, DEST = ("127.0.8.40", 17224), ("127.0.8.41", 17224)
STOP = "5ac3bc7269636800"
# Elements, bytes, and the value that is shown of these.
VALUES = [
    ('{ type = "UINT16", name = "speed", unit = "km/h", scale = 0.1 }', "007d", "{speed: 12.5 km/h (125)}"),
    ('{ type = "INT16", name = "oil", unit = "°C", scale = 0.01, offset = -273.15 }', "6ab4", "{oil: 0.01 °C (27316)}"),
    ('{ type = "INT16", name = "oil", unit = "°C", scale = 0.01, offset = -273.15 }', "6ab3", "{oil: 0.00 °C (27315)}"),
    ('{ type = "INT16", name = "oil", unit = "°C", scale = 0.01, offset = -273.15 }', "ffff", "{oil: -273.16 °C (-1)}"),
    ('{ type = "UINT8", name = "level", offset = -100 }', "64", "{level: 0 (100)}"),
    ('{ type = "UINT8", name = "level", scale = 1e30 }', "07", "{level: 7e+30 (7)}"),
    ('{ type = "UINT8", name = "level", scale = 1e-20 }', "07", "{level: 7e-20 (7)}"),
    ('{ type = "UINT64", name = "way", unit = "m", scale = 0.001 }', "ff" * 8,
     "{way: 1.84467440737096e+16 m (18446744073709551615)}"),
    ('{ type = "UINT64", name = "way", unit = "m" }', "ff" * 8, "{way: 18446744073709551615 m}"),
    ('{ type = "UINT16", unit = "km/h", scale = 0.1 }', "007d", "[12.5 km/h (125)]"),
    ('{ type = "UINT8", name = "n" }, { type = "UINT16", size = 0, name = "speeds", unit = "km/h", scale = 0.1 }',
     "02007d0082", "{n: 2, speeds: [12.5, 13.0] km/h ([125, 130])}"),
    ('{ type = "UINT8", scale = 2 }, { type = "UINT16", size = 0, name = "speeds", unit = "km/h" }',
     "01007d", "{2 (1), speeds: [125] km/h}"),
    ('{ type = "UINT32", as = "REAL32", name = "load" }', "3dcccccd", "{load: 0.1}"),
    ('{ type = "UINT32", as = "REAL32", name = "load", unit = "t", scale = 3.6 }', "3dcccccd", "{load: 0.36 t (0.1)}"),
    ('{ type = "UINT32", as = "REAL32", size = 7 }',
     "4b800001" "80000000" "00000001" "7f7fffff" "7f800000" "ff800000" "ffc00000",
     "[[16777218, -0, 1.4013e-45, 3.4028235e+38, inf, -inf, nan]]"),
    ('{ type = "UINT64", as = "REAL64", size = 4 }',
     "3fb999999999999a" "4340000000000001" "3fd5555555555555" "fff0000000000000",
     "[[0.1, 9007199254740994, 0.3333333333333333, -inf]]"),
    ('{ type = "BITSET8", as = "ANTIVALENT8", name = "locked" }', "02", "{locked: True (2)}"),
    ('{ type = "BITSET8", as = "ANTIVALENT8", name = "locked" }', "03", "{locked: 3}"),
    ('{ type = "BITSET8", as = "ANTIVALENT8", size = 3 }', "010203", "[[False, True, 3] ([1, 2, 3])]"),
    ('{ type = "BOOL8", name = "open" }, { type = "BOOL8" }, { type = "BITSET8", name = "bits" }', "010101",
     "{open: True (1), 1, bits: 1}"),
    ('{ type = "CHAR8", size = 8, name = "stop" }', STOP, "{stop: 'Zürich'}"),
    ('{ type = "CHAR8", size = 8, name = "stop" }', "ffc3bc7269636800",
     "{stop: [255, 195, 188, 114, 105, 99, 104, 0]}"),
    ('{ type = "CHAR8", size = 8, name = "stop" }', "1b5b324a27220a5c", "{stop: '\\x1b[2J\\'\"\\n\\\\'}"),
    ('{ type = "CHAR8", size = 3 }', "414200", "[[65, 66, 0]]"),
    ('{ type = "UTF16", size = 5, name = "stop" }', "004100e9d83dde820000", "{stop: 'Aé🚂'}"),
    ('{ type = "UTF16", size = 2, name = "stop" }', "d83d0041", "{stop: [55357, 65]}"),
    ('{ type = "TIMEDATE48", name = "since" }', "0000000a000b", "{since: (10, 11)}"),
    ('{ type = 6000, name = "first" }, { type = 6000, size = 2 }', "007d01" "008202" "008703",
     "{first: {speed: 12.5 km/h (125), locked: False (1)}, "
     "[{speed: 13.0 km/h (130), locked: True (2)}, {speed: 13.5 km/h (135), locked: 3}]}"),
    ('{ type = "UINT8", name = "a \\"b\\" \\\\n ]] --[[ ü" }', "05", '{a "b" \\n ]] --[[ ü: 5}'),
    ('{ type = "UINT8", name = "a\\u202eb", unit = "\\u2028" }', "05", "{a\\u202eb: 5 \\u2028}"),
]
FIRST = 7000  # the number of the first of these datasets, and its comId
CONFIG = """
[[dataset]]
id = 6000
name = "axle"
element = [
    { type = "UINT16", name = "speed", unit = "km/h", scale = 0.1 },
    { type = "BITSET8", as = "ANTIVALENT8", name = "locked" },
]
[[dataset]]
id = 6001
name = "the drive"
element = [
    { type = 6000, name = "front" },
    { type = 6000 },
    { type = "UINT8" },
    { type = 6000, size = 0, name = "more" },
]
[[dataset]]
id = 6002
element = [{ type = "CHAR8", size = 400, name = "stop" }]
[[telegram]]
com_id = 5002
dataset = 6002
[[telegram]]
com_id = 5000
dataset = 6001
name = "drive status"
[[telegram]]
com_id = 5001
dataset = 0
name = "bytes"
""" + "".join(f"[[dataset]]\nid = {number}\nelement = [{elements}]\n"
              f"[[telegram]]\ncom_id = {number}\ndataset = {number}\n"
              for number, (elements, _, _) in enumerate(VALUES, FIRST))
DRIVE = "007d01" "008202" "01" "008703"
DRIVE_VALUE = ("{front: {speed: 12.5 km/h (125), locked: False (1)}, {speed: 13.0 km/h (130), locked: True (2)}, 1, "
               "more: [{speed: 13.5 km/h (135), locked: 3}]}")
DRIVE_TREE = f"""\
    comId: 5000 (drive status)
    [dataset: 6001 (the drive)]
    value: {DRIVE_VALUE}
        front: {{speed: 12.5 km/h (125), locked: False (1)}}
            speed: 12.5 km/h (125)
                [number: 12.5]
            locked: False (1)
                [number: 1]
        element 1, dataset 6000 (axle): {{speed: 13.0 km/h (130), locked: True (2)}}
            speed: 13.0 km/h (130)
                [number: 13]
            locked: True (2)
                [number: 2]
        element 2, UINT8: 1
        more, item 0: {{speed: 13.5 km/h (135), locked: 3}}
            speed: 13.5 km/h (135)
                [number: 13.5]
            locked: 3
                [number: 3]
"""
# What a line says after the length: comId, payload, words.
LINES = [
    (5000, DRIVE, f"telegram='drive\\x20status' dataset='the\\x20drive' value={DRIVE_VALUE}"),
    (5000, "007d01", "telegram='drive\\x20status' dataset='the\\x20drive' data=007d01"),
    (5000, DRIVE + "00", f"telegram='drive\\x20status' dataset='the\\x20drive' data={DRIVE}00"),
    (5001, "0d", "telegram=bytes data=0d"),
    (5003, "0d", "data=0d"),
]
NAMES = [("doors", "doors"), ("Türen/1-4", "Türen/1-4"), ("it's", '"it\'s"'), ("a b", "'a\\x20b'"),
         ("a\\b", "'a\\\\b'"), ("a\u2028b", "'a\\u2028b'")]
# Texts, and what they are in Lua.
LUA_TEXTS = [("speed", '"speed"'), ('a"b\\', '"a\\034b\\092"'), ("]] --[[ é", '"]] --[[ \\195\\169"'),
             ("a\u2028b", '"a\\092u2028b"'), ("a\nb", '"a\\092nb"')]
# Of how many payloads each dataset is shown.
PAYLOADS = 60
# Bytes of texts that Python and the dissector escape alike.
LETTERS = b"\0\1\2\x1b'\"A\\"


def telegram(com_id: int, payload: bytes, counter: int = 0) -> bytes:
    """A telegram of process data."""
    return trdp_telegram.Telegram("Pd", com_id, counter, payload=payload).write()


def random_payload(chance: random.Random, elements: str, data: str) -> bytes:
    """Bytes that may be a value of these elements: as long as a value, or of another length."""
    length = chance.choice([len(data) // 2, len(data) // 2, chance.randrange(20)])
    has_text = "CHAR8" in elements or "UTF16" in elements
    return bytes(chance.choice(LETTERS) for _ in range(length)) if has_text else chance.randbytes(length)


class Readings(unittest.TestCase):
    """What the tools make of a value."""

    datasets = Datasets.from_tables(tomllib.loads(CONFIG))

    def line(self, com_id: int, payload: bytes) -> str:
        """The line of trdp_dump.py for a telegram."""
        everything = trdp_dump.Filter(frozenset(), frozenset())
        datagram = trdp_ports.Datagram(SOURCE, DEST, telegram(com_id, payload))
        return trdp_dump.dump_line(datagram, False, everything, self.datasets) or ""

    def test_values(self) -> None:
        """Each kind of element is shown as people read it."""
        for number, (elements, data, text) in enumerate(VALUES, FIRST):
            with self.subTest(elements, data=data):
                self.assertEqual(trdp_dump.payload_word(bytes.fromhex(data), number, self.datasets), f"value={text}")

    def test_lines(self) -> None:
        """A line has the names of its telegram and dataset before the value, or before bytes that are none."""
        for com_id, data, words in LINES:
            start = f"Pd comId={com_id} counter=0 counts=0,0 from={SOURCE[0]}:{SOURCE[1]} length={len(data) // 2} "
            self.assertEqual(self.line(com_id, bytes.fromhex(data)), start + words)

    def test_names_are_words(self) -> None:
        """A name is one word of a line, and all of it can be printed."""
        for name, word in NAMES:
            self.assertEqual(trdp_words.name_word(name), word)

    def test_reals_are_typed_as_they_are_shown(self) -> None:
        """trdp_send.py takes an infinity and a NaN by the words of a line, which Python doesn't read."""
        text = "{'load': [inf, -inf, nan], 'inf': 0.5}"
        self.assertEqual(repr(trdp_send.value_of(text)), text)

    def test_random_payloads(self) -> None:
        """No payload has a line print what can't be printed."""
        chance = random.Random(SEED)
        for number, (_, data, _) in enumerate(VALUES, FIRST):
            for _ in range(PAYLOADS):
                payload = chance.randbytes(chance.choice([len(data) // 2, chance.randrange(20)]))
                self.assertTrue(self.line(number, payload).isprintable(), (SEED, number, payload))

    def test_letters_that_the_output_lacks(self) -> None:
        """A line is printed in any encoding: letters that this one lacks are escaped."""
        folder = self.enterContext(tempfile.TemporaryDirectory())
        file = pathlib.Path(folder) / "node.toml"
        file.write_text(CONFIG)
        number = FIRST + [data for _, data, _ in VALUES].index(STOP)
        with mock.patch.dict(os.environ, {"PYTHONIOENCODING": "ascii"}):
            dump = Dump(["--toml", str(file)], 1, DEST[0])
        with socket.socket(socket.AF_INET, socket.SOCK_DGRAM) as out:
            out.sendto(telegram(number, bytes.fromhex(STOP)), DEST)
        self.assertEqual([it.partition(" value=")[2] for it in dump.lines()], ["{stop: 'Z\\xfcrich'}"])

    def test_texts_in_lua(self) -> None:
        """The script for the dissector quotes what a name has."""
        for text, quoted in LUA_TEXTS:
            self.assertEqual(trdp_lua.lua_text(text), quoted)

    def test_the_script(self) -> None:
        """The script has the names, units and numbers of the file."""
        config = ("[[dataset]]\nid = 40\nname = 'a'\nelement = [{ type = 1, name = 'b', unit = 'c', scale = 0.5 }, "
                  "{ type = 10, as = 'REAL32', offset = 1e3 }, { type = 'BITSET8' }]\n"
                  "[[telegram]]\ncom_id = 7\ndataset = 40\nname = 'd'\n")
        self.assertTrue(trdp_lua.lua_table(Datasets.from_tables(tomllib.loads(config))).endswith(
            '        [40] = { { "BOOL8", 1, name = "b", unit = "c", scale = 0.5, offset = 0.0, decimals = 1 }, '
            '{ "REAL32", 1, scale = 1.0, offset = 1000.0 }, { "BOOL8", 1 } },\n    },\n'
            '    telegram_names = {\n        [7] = "d",\n    },\n'
            '    dataset_names = {\n        [40] = "a",\n    },\n}\n'))


@unittest.skipUnless(shutil.which("tshark"), "tshark isn't there")
class Dissected(unittest.TestCase):
    """What the dissector makes of the same."""

    datasets = Readings.datasets

    def setUp(self) -> None:
        self.folder = pathlib.Path(self.enterContext(tempfile.TemporaryDirectory()))
        (self.folder / "datasets.lua").write_text(trdp_lua.lua_table(self.datasets), "ascii")

    def shown(self, telegrams: list[bytes], *words: str) -> str:
        """What tshark prints of telegrams."""
        capture = self.folder / "sent.pcapng"
        with open(capture, "wb") as out:
            file = trdp_telegram.PcapngFile(out)
            for data in telegrams:
                file.add(0, SOURCE, DEST, data)
        line = ["tshark", "-X", f"lua_script:{TOP}/wireshark/trdp.lua", "-X", f"lua_script:{self.folder}/datasets.lua",
                "-r", str(capture), *words]
        ran = subprocess.run(line, capture_output=True, encoding="utf-8", check=True, timeout=120)
        self.assertNotIn("Lua", ran.stderr)
        return ran.stdout

    def values(self, telegrams: list[bytes]) -> list[str]:
        """The value that is shown of each telegram; an empty text where it is none."""
        words = ["-T", "fields", "-e", "_ws.lua.error", "-e", "trdp.value"]
        rows = [it.split("\t", 1) for it in self.shown(telegrams, *words).splitlines()]
        self.assertEqual({fault for fault, _ in rows}, {""})
        return [value for _, value in rows]

    def test_values(self) -> None:
        """The values are those of the lines."""
        telegrams = [telegram(number, bytes.fromhex(data)) for number, (_, data, _) in enumerate(VALUES, FIRST)]
        self.assertEqual(self.values(telegrams), [text for _, _, text in VALUES])

    def test_random_payloads(self) -> None:
        """The same of payloads by chance, many of which are no value."""
        chance = random.Random(SEED)
        telegrams, texts = [], []
        for number, (elements, data, _) in list(enumerate(VALUES, FIRST)) * PAYLOADS:
            payload = random_payload(chance, elements, data)
            telegrams.append(telegram(number, payload))
            texts.append(trdp_dump.payload_word(payload, number, self.datasets))
        wanted = [it.removeprefix("value=") if it.startswith("value=") else "" for it in texts]
        self.assertEqual(self.values(telegrams), wanted, SEED)

    def test_the_tree(self) -> None:
        """The tree has a line for each element, by its name, with the number that people read."""
        said = self.shown([telegram(5000, bytes.fromhex(DRIVE))], "-O", "trdp")
        tree = said.partition("Train Real-time Data Protocol\n")[2]
        found = re.sub(r"^    (?!comId|\[dataset|value| ).*\n|^(?! ).*\n|^\n", "", tree, flags=re.MULTILINE)
        self.assertEqual(found, DRIVE_TREE)

    def test_the_list(self) -> None:
        """The list of packets has the name of the telegram, and a long value up to a whole letter."""
        said = self.shown([telegram(5000, bytes.fromhex(DRIVE), 7), telegram(5002, "ü".encode() * 200)])
        self.assertIn(f"Pd, data, comId 5000 (drive status), sequenceCounter 7, {DRIVE_VALUE}\n", said)
        self.assertIn("Pd, data, comId 5002, sequenceCounter 0, {stop: '" + "ü" * 94 + "...\n", said)

    def test_filters(self) -> None:
        """Elements are found by their names and by the numbers that people read, and so is what is no value."""
        payloads = [bytes.fromhex(it) for it in ("007c", "007d", "007e", "00")]
        telegrams = [telegram(FIRST, it, counter) for counter, it in enumerate(payloads)]
        for text, counters in [('trdp.element == "speed"', "0 1 2"), ('trdp.element == "oil"', ""),
                               ("trdp.element.number > 12.5", "2"), ("trdp.element.number == 12.5", "1"),
                               ("trdp.value.wrong", "3")]:
            said = self.shown(telegrams, "-Y", text, "-T", "fields", "-e", "trdp.sequenceCounter")
            self.assertEqual(" ".join(said.split()), counters, text)
