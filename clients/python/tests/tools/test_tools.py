"""trdp_dump.py, trdp_send.py and the dissector, over the telegrams that a script gives."""
from __future__ import annotations

import os
import pathlib
import shutil
import socket
import subprocess
import sys
import tempfile
import time
import unittest
from collections.abc import Callable

import testing
import trdp_dump
from testing import PYTHON, TOP
from trdp_slot import Datasets

SOURCE, DUMP, OTHER = "127.0.8.20", "127.0.8.21", "127.0.8.22"
PD, MD = 17224, 17225
SESSION = "0a0b0c0d-0000-0000-0000-000000000001"
ZERO = "00000000-0000-0000-0000-000000000000"

CONFIG = f"""
[node]
address = "{SOURCE}"
[[slot]]
publishers = 3
requesters = 1
callers = 2
listeners = 1
repliers = 2
[[dataset]]
id = 5002
element = [{{ type = "UINT8" }}, {{ type = "UINT8", size = 0 }}, {{ type = "UINT16" }}]
[[dataset]]
id = 6001
element = [{{ type = "INT64" }}, {{ type = "TIMEDATE48" }}, {{ type = 5002, size = 2 }}, {{ type = "UINT64" }}]
[[telegram]]
com_id = 2101
dataset = 5002
[[telegram]]
com_id = 2102
dataset = 6001
[[telegram]]
com_id = 300
dataset = 5002
"""

# What the node is to send, each line with the words of the dump's line for it, but for where it comes from.
VALUE_6001 = "80000000000000000000000a000b" "0107ffff" "000001" "ffffffffffffffff"
SCRIPT = f"""
call 0 publish 2101 5002 100000 0 0 0 {DUMP}:{PD}
call 0 put 1 04000200000102
call 0 publish 2102 6001 100000 0 17 4 {DUMP}:{PD}
call 0 put 2 {VALUE_6001}
call 0 publish 100 0 100000 0 0 0 {DUMP}:{PD}
call 0 put 3 -
moment 100000
moment 200000
call 0 openpull 101 100 10.0.0.7 0 0 {DUMP}:{PD}
call 0 pull 4
call 0 notify 300 646f6f72 636172 0 0 {DUMP}:{MD} 0105ffff
call 0 notify 301 - ff20 0 0 {DUMP}:{MD} 0d
call 0 request 300 {SESSION} 1 1000000 - - 17 4 {DUMP}:{MD} 0d
"""
DUMPED = [
    "Pd comId=2101 counter=0 counts=0,0 from={0} length=7 value=[4, [0, 2, 0, 0], 258]",
    "Pd comId=2102 counter=0 counts=17,4 from={0} length=29 "
    "value=[-9223372036854775808, (10, 11), [[1, [7], 65535], [0, [], 1]], 18446744073709551615]",
    "Pd comId=100 counter=0 counts=0,0 from={0} length=0 data=-",
    "Pd comId=2101 counter=1 counts=0,0 from={0} length=7 value=[4, [0, 2, 0, 0], 258]",
    "Pd comId=2102 counter=1 counts=17,4 from={0} length=29 "
    "value=[-9223372036854775808, (10, 11), [[1, [7], 65535], [0, [], 1]], 18446744073709551615]",
    "Pd comId=100 counter=1 counts=0,0 from={0} length=0 data=-",
    "Pr comId=101 counter=0 counts=0,0 from={0} length=0 replyComId=100 replyAddress=10.0.0.7 data=-",
    f"Mn comId=300 counter=0 counts=0,0 from={{0}} length=4 session={ZERO} status=0 time=0 uris=door>car "
    "value=[1, [5], 65535]",
    f"Mn comId=301 counter=0 counts=0,0 from={{0}} length=1 session={ZERO} status=0 time=0 "
    "uris=->b'\\xff\\x20' data=0d",
    f"Mr comId=300 counter=0 counts=17,4 from={{0}} length=1 session={SESSION} status=0 time=1000000 uris=->- data=0d",
]
# The words by which trdp_send.py sends the same.
SENT = [
    ["--com-id", "2101", "--data", "04000200000102"],
    ["--com-id", "2102", "--data", VALUE_6001, "--etb", "17", "--op-trn", "4"],
    ["--com-id", "100", "--data", "-"],
    ["--com-id", "2101", "--counter", "1", "--toml", "{toml}", "--value", "[4, [0, 2, 0, 0], 258]"],
    ["--com-id", "2102", "--counter", "1", "--etb", "17", "--op-trn", "4", "--toml", "{toml}", "--dataset", "6001",
     "--value", "[-9223372036854775808, (10, 11), [[1, [7], 65535], [0, [], 1]], 18446744073709551615]"],
    ["--com-id", "100", "--counter", "1"],
    ["--type", "Pr", "--com-id", "101", "--reply-com-id", "100", "--reply-address", "10.0.0.7"],
    ["--type", "Mn", "--com-id", "300", "--source-uri", "door", "--dest-uri", "car", "--data", "0105ffff"],
    None,
    ["--type", "Mr", "--com-id", "300", "--session", SESSION, "--time-us", "1000000", "--etb", "17", "--op-trn", "4",
     "--data", "0d"],
]


class Dump:
    """trdp_dump.py, as a process that has its ports."""

    def __init__(self, words: list[str], count: int, address: str = DUMP) -> None:
        line = [sys.executable, "-W", "error", str(PYTHON / "trdp_dump.py"), address, "--count", str(count), *words]
        self.process = subprocess.Popen(line, stdout=subprocess.PIPE, stderr=subprocess.PIPE, text=True)
        assert self.process.stderr is not None
        self.begun = self.process.stderr.readline()

    def lines(self) -> list[str]:
        """What it printed, once it has ended."""
        out, err = self.process.communicate(timeout=60)
        if self.process.returncode or err:
            raise AssertionError(self.begun + err)
        return out.splitlines()


class Tools(unittest.TestCase):
    """The telegrams that a script gives, in all tools."""

    telegrams: list[tuple[str, bytes]]

    @classmethod
    def setUpClass(cls) -> None:
        given = [it.split() for it in testing.play(CONFIG, SCRIPT)]
        cls.telegrams = [((it[3], bytes.fromhex(it[4]))) for it in given if it[1] == "send"]

    def setUp(self) -> None:
        folder = tempfile.TemporaryDirectory()
        self.addCleanup(folder.cleanup)
        self.folder = pathlib.Path(folder.name)
        self.toml = self.folder / "node.toml"
        self.toml.write_text(CONFIG)

    def send(self, count: int = len(DUMPED)) -> str:
        """Sends the telegrams, or the first ones. Answers where they come from."""
        with socket.socket(socket.AF_INET, socket.SOCK_DGRAM) as out:
            out.bind((SOURCE, 0))
            for place, data in self.telegrams[:count]:
                address, port = place.split(":")
                out.sendto(data, (address, int(port)))
            return f"{SOURCE}:{out.getsockname()[1]}"

    @staticmethod
    def in_order(lines: list[str]) -> list[str]:
        """What was printed, by its port: they come to two, and the order of each alone is kept."""
        return sorted(lines, key=lambda it: it.startswith("M"))

    def test_lines(self) -> None:
        dump = Dump(["--toml", str(self.toml)], len(DUMPED))
        source = self.send()
        self.assertEqual(self.in_order(dump.lines()), [it.format(source) for it in DUMPED])

    def test_filters(self) -> None:
        filters: list[tuple[list[str], Callable[[str], bool]]] = [
            (["--com-id", "300", "--com-id", "100"], lambda it: "comId=300 " in it or "comId=100 " in it),
            (["--type", "Mn", "--type", "Pr"], lambda it: it[:2] in ("Mn", "Pr")),
            (["--type", "Mr", "--com-id", "300"], lambda it: it.startswith("Mr comId=300 ")),
        ]
        for words, is_wanted in filters:
            wanted = [it for it in DUMPED if is_wanted(it)]
            dump = Dump(["--toml", str(self.toml), *words], len(wanted))
            source = self.send()
            self.assertEqual(self.in_order(dump.lines()), [it.format(source) for it in wanted])

    def test_without_a_file_the_payload_is_bytes(self) -> None:
        dump = Dump(["--time"], 1)
        source = self.send(1)
        moment, line = dump.lines()[0].split(" ", 1)
        self.assertAlmostEqual(float(moment), time.time(), delta=20)
        self.assertEqual(line, f"Pd comId=2101 counter=0 counts=0,0 from={source} length=7 data=04000200000102")

    def test_what_is_no_telegram(self) -> None:
        dump = Dump([], 3)
        with socket.socket(socket.AF_INET, socket.SOCK_DGRAM) as out:
            out.bind((SOURCE, 0))
            source = f"{SOURCE}:{out.getsockname()[1]}"
            data = self.telegrams[0][1]
            for wrong in (b"abc", data[:8] + b"\x01" + data[9:], self.telegrams[-1][1]):
                out.sendto(wrong, (DUMP, PD))
        self.assertEqual(dump.lines(), [f"fault=Short from={source} length=3", f"fault=Fcs from={source} length=48",
                                        f"fault=Fcs from={source} length=120"])

    def test_it_ends_by_its_time(self) -> None:
        line = [sys.executable, "-W", "error", str(PYTHON / "trdp_dump.py"), DUMP, "--for-us", "1000"]
        self.assertEqual(subprocess.run(line, capture_output=True, timeout=60).returncode, 0)

    @unittest.skipUnless(os.geteuid() == 0, "what comes to another program's ports can be copied by root alone")
    def test_beside_the_program_that_has_the_ports(self) -> None:
        with socket.socket(socket.AF_INET, socket.SOCK_DGRAM) as taken:
            taken.bind((DUMP, PD))
            dump = Dump(["--toml", str(self.toml), "--beside"], len(DUMPED))
            source = self.send()
            # They come to one socket here.
            self.assertEqual(dump.lines(), [it.format(source) for it in DUMPED])
            taken.settimeout(20)
            self.assertEqual(taken.recv(65536), self.telegrams[0][1])
            ran = subprocess.run([sys.executable, str(PYTHON / "trdp_dump.py"), DUMP], capture_output=True, timeout=60)
            self.assertEqual(ran.returncode, 1)

    def test_send_gives_the_same_telegrams(self) -> None:
        with socket.socket(socket.AF_INET, socket.SOCK_DGRAM) as port:
            port.bind((OTHER, 0))
            port.settimeout(20)
            place = f"{OTHER}:{port.getsockname()[1]}"
            for words, (_, data) in zip(SENT, self.telegrams, strict=True):
                if words is not None:
                    with self.subTest(words):
                        self.assertEqual(self.sent(port, place, words, 1), [data])
            words = ["--com-id", "2101", "--data", "04000200000102", "--cycle-us", "2000", "--count", "2"]
            self.assertEqual(self.sent(port, place, words, 2), [self.telegrams[0][1], self.telegrams[3][1]])

    def sent(self, port: socket.socket, place: str, words: list[str], count: int) -> list[bytes]:
        """What trdp_send.py sends."""
        words = [it.replace("{toml}", str(self.toml)) for it in words]
        line = [sys.executable, "-W", "error", str(PYTHON / "trdp_send.py"), place, *words]
        ran = subprocess.run(line, capture_output=True, timeout=60)
        self.assertEqual((ran.returncode, ran.stderr), (0, b""))
        return [port.recv(65536) for _ in range(count)]

    def test_send_says_what_is_wrong(self) -> None:
        toml = ["--toml", str(self.toml)]
        for words, fault in [
            (["--com-id", "2101", *toml, "--value", "[1, [300], 0]"], "dataset 5002, element 1, item 0: 300 is no"),
            (["--com-id", "1", *toml, "--value", "[1]"], "names no dataset for comId 1"),
        ]:
            line = [sys.executable, str(PYTHON / "trdp_send.py"), f"{OTHER}:9", *words]
            ran = subprocess.run(line, capture_output=True, timeout=60, text=True)
            self.assertEqual(ran.returncode, 1)
            self.assertIn(fault, ran.stderr)

    def test_the_words_of_uris(self) -> None:
        for data, word in [(b"", "-"), (b"car", "car"), (b"a b", "b'a\\x20b'"), (b"a>b", "b'a>b'"),
                           (b"\xff", "b'\\xff'")]:
            self.assertEqual(trdp_dump.uri_word(data), word)

    @unittest.skipUnless(shutil.which("tshark"), "tshark isn't there")
    def test_the_dissector_shows_the_same(self) -> None:
        file = self.folder / "given.pcapng"
        dump = Dump(["--toml", str(self.toml), "--pcapng", str(file)], len(DUMPED))
        self.send()
        lines = dump.lines()
        script = self.folder / "datasets.lua"
        with open(script, "wb") as out:
            subprocess.run([str(PYTHON / "trdp_lua.py"), str(self.toml)], stdout=out, check=True)
        names = ["comId", "sequenceCounter", "etbTopoCnt", "opTrnTopoCnt", "datasetLength", "headerFcs.status",
                 "value", "sourceURI", "destinationURI"]
        words = [it for name in names for it in ("-e", f"trdp.{name}")]
        command = ["tshark", "-X", f"lua_script:{TOP}/wireshark/trdp.lua", "-X", f"lua_script:{script}", "-r",
                   str(file), "-T", "fields", "-E", "separator=|", *words]
        shown = subprocess.run(command, capture_output=True, encoding="utf-8", errors="replace", check=True,
                               timeout=60).stdout
        for line, row in zip(lines, shown.splitlines(), strict=True):
            com_id, counter, etb, op_trn, length, status, value, source, dest = row.split("|")
            self.assertIn(f" comId={com_id} counter={counter} counts={etb},{op_trn} ", line)
            self.assertIn(f" length={length} ", line)
            self.assertEqual(status, "1")
            self.assertEqual(value, line.partition(" value=")[2])
            self.assertEqual((source, dest) == ("door", "car"), " uris=door>car " in line)
        value = next(it.split("|")[6] for it in shown.splitlines() if it.startswith("2102|"))
        self.assertEqual(Datasets.from_toml(self.toml).pack(6001, eval(value)).hex(), VALUE_6001)
