"""trdp_import.py: what it refuses, by one sentence, and without a folder."""
from __future__ import annotations

import contextlib
import io
import itertools
import os
import pathlib
import random
import re
import subprocess
import sys
import tempfile
import time
import unittest

import trdp_import
from test_import import EXPECTED, FILES, MD, PD, data_set, device, places, run, telegram

# How many files are spoiled, and by which chance: TRDP_SPOILED=10000 and TRDP_SEED=N in the environment change both.
SPOILED = int(os.environ.get("TRDP_SPOILED") or 1000)
SEED = int(os.environ.get("TRDP_SEED") or 1)
MIB = 1 << 20
WORDS = (b"0", b"-1", b"+7", b" 1 ", b"17", b"256", b"4294967295", b"4294967296", 5000 * b"9", b"", b"on", b"TCP",
         b"sink", b"REAL64", b"239.0.0.1", b"0.0.0.0", b"10.0.0", b"u@h", b"&#10;", b"&x;", b"\xff")
PATTERNS = (rb'(?<=")[^"<>]*(?=")', rb'(?<=")[^"<>]*(?=")', rb"<[^<>]*>", rb"\d+", rb"\w+", rb"(?s).")


def spoil(data: bytes, chance: random.Random) -> bytes:
    """A file in which something is changed: bytes, what is in quotes, or whole elements."""
    for _ in range(chance.randint(1, 3)):
        found = list(re.finditer(chance.choice(PATTERNS), data))
        if found:
            place, other = chance.choice(found), chance.choice(found)
            new = chance.choice((chance.choice(WORDS), other.group(), other.group(), 2 * place.group(), b""))
            data = data[:place.start()] + new + data[place.end():]
    return data


DEEP = "".join(f"<x{it}>" for it in range(62)) + "".join(f"</x{it}>" for it in reversed(range(62)))
SINK = telegram("sink", PD)
QUALITY = '<com-parameter id="7"/>'
# Files, and the sentence for each.
REFUSED: list[tuple[bytes, str]] = [
    (b"", "line 1: this is no XML: no element found"),
    (b"<device\n<", "line 2: this is no XML: not well-formed (invalid token)"),
    (b"<train/>", "line 1: the root is train, and no device"),
    (b"\n<!DOCTYPE device>\n<device/>", "line 2: a DTD is refused, and so is each entity"),
    (b'<!DOCTYPE d [<!ENTITY a "b">]><device/>', "line 1: a DTD is refused, and so is each entity"),
    (b'<device host-name="&a;"/>', "line 1: this is no XML: undefined entity"),
    (b'<?xml version="1.0" encoding="x"?><device/>', "line 1: the file's encoding is unknown"),
    (device(SINK, more=f"<y><y>{DEEP}</y></y>"), "line 1: elements nest deeper than 64"),
    (16 * MIB * b" " + b"<", "the file has more than 16777216 bytes"),
    (b"<device/>", "line 1: device has no host-name"),
    (b'<device host-name="a"/>', "line 1: the device has no bus-interface"),
    (device(""), "line 1: the interface e has no telegrams"),
    (device(SINK, interface=""), "line 1: the interface e has no host-ip, and --hosts has no address of a"),
    (device(SINK).replace(b' name="e"', b""), "line 1: bus-interface has no name"),
    (device('</bus-interface>\n<bus-interface name="e">'), "line 2: a second interface has the name e"),
    (device('<pd-com-parameter port="17225"/>'), "line 1: both protocols have the port 17225"),
    (device(2 * "<pd-com-parameter/>\n"), "line 2: a second pd-com-parameter in bus-interface"),
    (device(telegram("sink", PD + "\n" + PD)), "line 2: a second pd-parameter in telegram"),
    (device("", more="<com-parameter-list>\n<com-parameter/></com-parameter-list>"), "line 2: com-parameter has no id"),
    (device("", more=f"<com-parameter-list>{2 * QUALITY}</com-parameter-list>"),
     "line 1: a second com-parameter has the id 7"),
    (device(telegram("sink", PD, 'data-set-id="40"')), "line 1: there is no data-set 40"),
    (device("", data_set(40, 'type="INT8"') + "\n" + data_set(40)), "line 2: a second data-set has the id 40"),
    (device("", data_set(40, 'type="41"')), "line 1: there is no type and no data-set 41"),
    (device("", data_set(40, 'type="40"')), "line 1: data-set 40 nests in itself"),
    (device("", data_set(40, 'type="41"') + data_set(41, 'type="42"') + data_set(42, 'type="41"')),
     "line 1: data-set 41 nests in itself"),
    (device("", data_set(40, "")), "line 1: element has no type"),
    (device("", data_set(40, 'type="float"')), "line 1: there is no type float"),
    (device("", data_set(40, 'type="17"')), "line 1: there is no type and no data-set 17"),
]


class Files(unittest.TestCase):
    """What is no device configuration."""

    def refused(self, data: bytes, fault: str) -> None:
        """A file is refused by this sentence."""
        found = run(data)
        self.assertEqual((found.status, found.report, found.files), (1, [], {}))
        self.assertEqual(found.error, f"trdp_import.py: device.xml: {fault}\n")

    def test_files(self) -> None:
        """Each file is refused, with the line."""
        for data, fault in REFUSED:
            with self.subTest(fault, data=data[:200]):
                self.refused(data, fault)

    def test_files_that_are_read(self) -> None:
        """Elements may nest 64 deep, and a file may be in another encoding."""
        sink = device(SINK)
        for data in (device(SINK, more=f"<y>{DEEP}<y/></y>"), b"\xef\xbb\xbf" + sink, sink.decode().encode("utf-16"),
                     b'<?xml version="1.0" encoding="windows-1252"?>' + sink, sink + b"\n" + 1000 * b"<!-- -->"):
            with self.subTest(data[:60]):
                self.assertEqual((run(data).status, run(data).files), (0, run(sink).files))

    def test_attributes(self) -> None:
        """A number, an address or a word that is none is refused."""
        sink = device(telegram("sink", PD + '<source uri1="10.0.0.2"/>', 'com-parameter-id="1" create="on"'),
                      interface='host-ip="10.0.0.1" leader-ip="10.0.0.3"')
        u32 = "0 to 4294967295"
        for old, new, fault in [
            ('com-id="5"', 'com-id="x"', f"com-id x is no number of {u32}"),
            ('com-id="5"', 'com-id="-0"', f"com-id -0 is no number of {u32}"),
            ('com-id="5"', 'com-id="4294967296"', f"com-id 4294967296 is no number of {u32}"),
            ('com-id="5"', 'com-id=" "', "telegram has no com-id"),
            ('cycle="1000"', 'cycle="1 000"', f"cycle '1 000' is no number of {u32}"),
            ('timeout="2000"', 'timeout="2e3"', f"timeout 2e3 is no number of {u32}"),
            ('com-parameter-id="1"', 'com-parameter-id="0x1"', f"com-parameter-id 0x1 is no number of {u32}"),
            ('type="sink"', 'type="Sink"', "type Sink is none of source, sink, source-sink"),
            ('create="on"', 'create="yes"', "create yes is none of on, off"),
            ('uri1="10.0.0.2"', 'uri1="10.0.0.256"', "uri1 10.0.0.256 is no address, as 10.0.0.2"),
            ('uri1="10.0.0.2"', 'uri1="u@10.0.02"', "uri1 10.0.02 is no address, as 10.0.0.2"),
            ('host-ip="10.0.0.1"', 'host-ip="eth0"', "host-ip eth0 is no address, as 10.0.0.2"),
            ('host-ip="10.0.0.1"', 'host-ip="239.0.0.1"', "host-ip 239.0.0.1 is no address of a device"),
            ('leader-ip="10.0.0.3"', 'leader-ip="10.0.0.3/8"', "leader-ip 10.0.0.3/8 is no address, as 10.0.0.2"),
            ("<pd-parameter ", '<pd-parameter validity-behavior="hold" ',
             "validity-behavior hold is none of zero, keep"),
            ("<pd-parameter ", '<md-parameter protocol="udp"/><pd-parameter ', "protocol udp is none of UDP, TCP"),
        ]:
            with self.subTest(new):
                self.assertEqual(sink.count(old.encode()), 1)
                self.refused(sink.replace(old.encode(), new.encode()), f"line 1: {fault}")
        for attribute, fault in [('scale="INF"', "scale INF is no finite number"), ('offset="1,5"', "offset 1,5 is no "
                                 "finite number"), ('scale="1e999"', "scale 1e999 is no finite number"),
                                 ('array-size="*"', f"array-size * is no number of {u32}")]:
            self.refused(device("", data_set(40, f'type="INT8" {attribute}')), f"line 1: {fault}")

    def test_spoiled_files(self) -> None:
        """Files that are spoiled by chance give a status, one sentence if there is no folder, and no traceback."""
        chance = random.Random(SEED)
        given = [(it[0], it[1:]) for it in EXPECTED.values()]
        statuses = set()
        for number in range(SPOILED):
            file, words = chance.choice(given)
            with self.subTest(number=number, seed=SEED):
                found = run(spoil((FILES / file).read_bytes(), chance), *words)
                statuses.add(found.status)
                self.assertEqual(bool(found.files), found.status in (0, 3))
                self.assertRegex(found.error, r"^(?!.*Traceback)trdp_import.py: [^\n]+\n$" if not found.files else "^$")
        self.assertLessEqual({0, 1, 3}, statuses)


class Words(unittest.TestCase):
    """Words of the command line that cannot be meant, and the folder."""

    def test_words_that_do_not_match_the_file(self) -> None:
        """The interface, the comIds and the port have to be those of the file."""
        local = device(telegram("sink", PD), interface='host-ip="127.0.0.1"')
        none: list[str] = []
        for data, words, fault in [
            ((FILES / "desk.xml").read_bytes(), none, "--interface has to name one of the interfaces: eth0, eth1"),
            (local, ["--interface", "eth0"], "--interface has to name one of the interfaces: e"),
            (local, ["--slot", "a=5,6"], "the interface e has no telegram of comId 6"),
            (local, ["--bytes", "7,5"], "the interface e has no telegram of comId 7"),
            (local, ["--port", "17125"], "--port 17125: one of the ports from there on is the interface's own"),
        ]:
            with self.subTest(words):
                found = run(data, *words)
                self.assertEqual((found.status, found.report, found.files, found.error),
                                 (2, [], {}, f"trdp_import.py: {fault}\n"))

    def test_words(self) -> None:
        """Other words are refused before a file is read."""
        for words, fault in [
            (["x"], "the following arguments are required: -o"),
            (["-o", "f"], "the following arguments are required: DEVICE.xml"), (["x", "-o", ""], "-o has no folder"),
            (["x", "-o", "f", "--slot", "a"], "argument --slot: '' is no whole number of 0 to 4294967295"),
            (["x", "-o", "f", "--slot", "a/b=5"], "argument --slot: 'a/b' is no name of a slot: letters, digits and _"),
            (["x", "-o", "f", "--slot", "a=5", "--slot", "A=6"], "two slots have one name, except for case"),
            (["x", "-o", "f", *(f"--slot=s{it}=5" for it in range(17))], "a node has at most 16 slots, and not 17"),
            (["x", "-o", "f", "--bytes", "1,-1"], "argument --bytes: '-1' is no whole number of 0 to 4294967295"),
            (["x", "-o", "f", "--port", "65436"], "argument --port: '65436' is no whole number of 1 to 65435"),
        ]:
            with self.subTest(words), contextlib.redirect_stderr(io.StringIO()) as error:
                with self.assertRaises(SystemExit) as ended:
                    trdp_import.main(words)
                self.assertEqual(ended.exception.code, 2)
                self.assertEqual(error.getvalue(), f"trdp_import.py: {fault} (--help names all words)\n")

    def test_folders(self) -> None:
        """The folder is made, or was empty; else nothing is written."""
        with tempfile.TemporaryDirectory() as made, contextlib.chdir(made):
            top = pathlib.Path(made)
            (top / "x").write_bytes(device(telegram("sink", PD + MD + places("10.0.0.1"))))
            (top / "empty").mkdir(mode=0o700)
            (top / "link").symlink_to("new", target_is_directory=True)
            for folder, status, fault in [
                ("empty", 0, ""), ("link", 0, ""), ("new", 1, "it is not empty"), ("x", 1, "Not a directory"),
                ("none/new", 1, "No such file or directory"), ("x/new", 1, "Not a directory"),
            ]:
                with self.subTest(folder), contextlib.redirect_stderr(io.StringIO()) as error:
                    self.assertEqual(trdp_import.main(["x", "-o", folder, "--skeleton"]), status)
                    self.assertEqual(error.getvalue(), f"trdp_import.py: {folder}: {fault}\n" if fault else "")
            wanted = ["a.lines", "a_skeleton.c", "a_skeleton.py", "node.toml", "qos.nft"]
            self.assertEqual(sorted(it.name for it in top.iterdir()), ["empty", "link", "new", "x"])
            for name in ("empty", "new"):
                self.assertEqual(sorted(it.name for it in (top / name).iterdir()), wanted)
            self.assertEqual((top / "empty").stat().st_mode & 0o777, 0o700)
            umask = os.umask(0)
            os.umask(umask)
            self.assertEqual((top / "new").stat().st_mode & 0o777, 0o777 & ~umask)

    def test_a_missing_file(self) -> None:
        """A file that is missing is a sentence, too."""
        with contextlib.redirect_stderr(io.StringIO()) as error:
            self.assertEqual(trdp_import.main(["nowhere/x.xml", "-o", "nowhere/x"]), 1)
        self.assertEqual(error.getvalue(), "trdp_import.py: nowhere/x.xml: No such file or directory\n")

    def test_a_long_file(self) -> None:
        """A file of 16 MiB is imported within 20 seconds of a processor."""
        one = telegram("source", PD + places("10.0.0.2", "10.0.0.3", "host"), 'data-set-id="40"')
        set_of = data_set(40, *64 * ['name="x" type="41"'])
        other = "".join(data_set(it, *20 * ['name="value" type="UINT8" unit="m"']) for it in range(41, 8000))
        head = len(device("", set_of + other))
        data = device((16 * MIB - head) // len(one) * one, set_of + other)
        self.assertGreater(len(data), 16 * MIB - 1000)
        begun = time.process_time()
        self.assertEqual(run(data).status, 3)
        self.assertLess(time.process_time() - begun, 20)

    def test_many_of_one_kind(self) -> None:
        """Neither many names that become one identifier take long, nor datasets that are many elements of others."""
        names = ("".join(it) for it in itertools.product("-.+ ", repeat=6))
        sinks = "".join(f'<telegram name="{it}" com-id="5" type="sink" data-set-id="40"/>' for it in names)
        sets = data_set(40, *20_000 * ['type="41"']) + data_set(41, *20_000 * ['type="UINT8"'])
        begun = time.process_time()
        self.assertEqual(run(device(sinks, sets)).status, 3)
        self.assertLess(time.process_time() - begun, 5)

    def test_a_report_that_cannot_be_written(self) -> None:
        """If standard output fails, so does the import, and there is no folder."""
        with tempfile.TemporaryDirectory() as made, open("/dev/full", "w", encoding="ascii") as full:
            device_file = pathlib.Path(made) / "x.xml"
            device_file.write_bytes(device("<x/>" + SINK))
            ran = subprocess.run([sys.executable, trdp_import.__file__, device_file, "-o", f"{made}/new"], stdout=full,
                                 stderr=subprocess.PIPE, text=True)
            self.assertEqual((ran.returncode, ran.stderr), (1, "trdp_import.py: No space left on device\n"))
            self.assertEqual(os.listdir(made), ["x.xml"])
