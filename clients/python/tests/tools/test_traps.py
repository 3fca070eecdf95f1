"""What can't be meant, and what can't be read: the tools answer each word by a sentence, and survive all that comes.

What comes by chance is in test_chance.py.
"""
from __future__ import annotations

import contextlib
import io
import os
import pathlib
import socket
import struct
import subprocess
import sys
import tempfile
import types
import unittest
from unittest import mock

import testing
import trdp_dump
import trdp_lua
import trdp_ports
import trdp_send
import trdp_telegram
import trdp_words
from testing import PYTHON, TOP

sys.path.insert(0, str(TOP / "examples/control"))
import client  # noqa: E402

SOURCE, DUMP, GROUP = "127.0.8.25", "127.0.8.26", "239.192.8.25"
PLACE = f"{SOURCE}:9"
TOML = """
[node]
address = "127.0.8.25"
[[dataset]]
id = 5002
element = [{ type = "UINT8" }, { type = "UINT8", size = 0 }, { type = "UINT16" }]
[[telegram]]
com_id = 2101
dataset = 5002
[[telegram]]
com_id = 300
dataset = 5002
"""
FAULTS = {
    "bad.toml": "dataset = [", "deep.toml": "a = " + "[" * 5000,
    "none.toml": "[[telegram]]\ncom_id = 2101\ndataset = 7\n",
}

# The words of each tool that can't be meant, by what is wrong with them, and what the sentence says of it.
SEND_TRAPS: list[tuple[list[str], str]] = [
    (["127.0.0.1", "--com-id", "1"], "'127.0.0.1' has no port"), (["x:17224", "--com-id", "1"], "'x' is no address"),
    (["localhost:17224", "--com-id", "1"], "'localhost' is no address"), (["", "--com-id", "1"], "'' has no port"),
    ([f"{SOURCE}:99999", "--com-id", "1"], "'99999' is no whole number of 1 to 65535"),
    ([f"{SOURCE}:0", "--com-id", "1"], "'0' is no whole number of 1"),
    ([f"{SOURCE}:", "--com-id", "1"], "'' is no whole"),
    (["::1:17224", "--com-id", "1"], "'::1' is no address"), ([f"{SOURCE}.:1", "--com-id", "1"], "is no address"),
    (["127.0.0.01:17224", "--com-id", "1"], "is no address"), ([PLACE], "required: --com-id"), ([], "required: place"),
    ([PLACE, "--com-id", "-1"], "'-1' is no whole number of 0 to 4294967295"),
    ([PLACE, "--com-id", "4294967296"], "is no whole number"), ([PLACE, "--com-id", "9" * 5000], "is no whole number"),
    ([PLACE, "--com-id", "1_0"], "is no whole number"), ([PLACE, "--com-id", "1", "--jump"], "unrecognized"),
    ([PLACE, "--com-id", "1", "--type", "Px"], "invalid choice: 'Px'"),
    ([PLACE, "--com-id", "1", "--data", "xyz"], "'xyz' is neither - nor hexadecimal digits"),
    ([PLACE, "--com-id", "1", "--data", "0"], "'0' is neither"),
    ([PLACE, "--com-id", "1", "--count", "3"], "--count wants"),
    ([PLACE, "--com-id", "1", "--cycle-us", "0"], "'0' is no whole number of 1"),
    ([PLACE, "--com-id", "1", "--cycle-us", "9", "--count", "0"], "'0' is no whole number of 1"),
    ([PLACE, "--com-id", "1", "--cycle-us", "-1"], "'-1' is no whole"),
    ([PLACE, "--com-id", "1", "--count"], "expected one"),
    ([PLACE, "--com-id", "1", "--from", "127.0.0.1"], "'127.0.0.1' has no port"),
    *[([f"{GROUP}:9", "--com-id", "1", "--ttl", it], "is no whole number of 1 to 255")
      for it in ("0", "256", "-1", "x")],
    ([PLACE, "--com-id", "1", "--type", "Mr", "--session", "x"], "'x' is neither new nor a UUID"),
    ([PLACE, "--com-id", "1", "--session", "new"], "--session: a telegram of type Pd has none"),
    ([PLACE, "--com-id", "1", "--type", "Mn", "--session", "new"], "--session: a telegram of type Mn has none"),
    ([PLACE, "--com-id", "1", "--status", "1"], "--status: a telegram of type Pd has none"),
    ([PLACE, "--com-id", "1", "--type", "Mn", "--reply-com-id", "1"], "--reply-com-id: a telegram of type Mn has none"),
    ([PLACE, "--com-id", "1", "--type", "Mn", "--status", "2147483648"], "is no whole number"),
    ([PLACE, "--com-id", "1", "--type", "Mn", "--source-uri", "x" * 33], "more than 32 bytes"),
    ([PLACE, "--com-id", "1", "--type", "Pr", "--reply-address", "host"], "'host' is no address"),
    ([PLACE, "--com-id", "1", "--value", "[1]"], "--value wants --toml"),
    ([PLACE, "--com-id", "1", "--dataset", "5002"], "--dataset wants --value"),
    ([PLACE, "--com-id", "2101", "--toml", "node.toml", "--dataset", "0", "--value", "[1]"], "is no whole number of 1"),
    *[([PLACE, "--com-id", "2101", "--toml", "node.toml", "--value", it], "is no value")
      for it in ("[1, [", "", "x", "{[]: 1}", "[" * 5000, "(" + "-" * 5000 + "1)", "f()", "\0")],
    ([PLACE, "--com-id", "1", "--data", "00", "--value", "[1]"], "not allowed with"),
]
DUMP_TRAPS: list[tuple[list[str], str]] = [
    (["localhost"], "'localhost' is no address"), (["::1"], "is no address"), ([""], "is no address"), ([], "required"),
    (["127.0.0.1:17224"], "is no address"), ([DUMP, "--pd-port", "99999"], "'99999' is no whole number of 1 to 65535"),
    ([DUMP, "--md-port", "0"], "'0' is no whole number"), ([DUMP, "--pd-port", "17225"], "are both 17225"),
    ([DUMP, "--com-id", "-1"], "'-1' is no whole number"), ([DUMP, "--type", "Pe"], "invalid choice"),
    ([DUMP, "--count", "0"], "'0' is no whole number of 1"), ([DUMP, "--count", "-5"], "'-5' is no whole number of 1"),
    ([DUMP, "--for-us", "0"], "'0' is no whole number of 1"), ([DUMP, "--for-us", "1e6"], "'1e6' is no whole number"),
    ([DUMP, "--for-us", "9" * 18], "is no whole number"), ([DUMP, "more"], "unrecognized"),
    *[([DUMP, "--group", it], "is no address") for it in ("door", "239.192.0", "239.192.0.1:17224", "")],
    *[([DUMP, "--group", it], f"'{it}' is no group, 224.0.0.0 to 239.255.255.255")
      for it in ("127.0.0.1", "223.255.255.255", "240.0.0.0", "255.255.255.255")],
    *[([DUMP, "--group", GROUP, "--interface", it], "is no interface of this machine, nor an address that one has")
      for it in ("gone0", "192.0.2.77", "0.0.0.0", "255.255.255.255", GROUP, "::1", "lo\0", "\ud800", "", "x" * 99)],
    ([DUMP, "--interface", "lo"], "--interface wants --group"), ([DUMP, "--group"], "expected one"),
]
CLIENT_TRAPS: list[tuple[list[str], str]] = [
    (["localhost", "18000", "1", "get 1"], "'localhost' is no address"), ([SOURCE, "18000", "1"], "required: line"),
    ([SOURCE, "99999", "1", "get 1"], "'99999' is no whole number of 1 to 65535"), ([], "required"),
    ([SOURCE, "0", "1", "get 1"], "'0' is no whole"), ([SOURCE, "x", "1", "get 1"], "'x' is no whole"),
    *[([SOURCE, "18000", it, "get 1"], "is no time") for it in ("x", "nan", "inf", "-1", "1e300", "")],
    ([SOURCE, "18000", "1", "x" * 65508], "more than 65507 bytes"), (["--st", SOURCE, "9", "1", "#"], "unrecognized"),
    (["./18000"], "required: seconds, line"), (["./18000", "x", "get 1"], "'x' is no time"),
    (["./18000", "1", "x" * 140_000], "more than 139999 bytes"), (["./" + "x" * 106, "1", "#"], "more than 107 bytes"),
    (["./\0", "1", "#"], "is no path"), (["--stay"], "required: address, port"), (["--stay", SOURCE], "required: port"),
    (["--stay", "localhost", "18000"], "'localhost' is no address"), (["--stay=1", "./18000"], "ignored explicit"),
    (["--stay", SOURCE, "18000", "x" * 65508], "more than 65507 bytes"),
    (["--stay", "--", "-", "./18000"], "'-' is no path"), ([SOURCE, "9", "--", "--", "get 1", "#"], "is no time"),
]
# The words that are meant, but can't be done.
UNDONE: list[tuple[types.ModuleType, list[str], str]] = [
    (trdp_send, [PLACE, "--com-id", "1", "--from", "192.0.2.1:0"], "192.0.2.1:0: Cannot assign requested address"),
    (trdp_send, ["255.255.255.255:9", "--com-id", "1"], "255.255.255.255:9: "),
    (trdp_send, [f"{GROUP}:9", "--com-id", "1", "--from", f"{GROUP}:0"], f"{GROUP}:0: Cannot assign requested address"),
    (trdp_send, [PLACE, "--com-id", "2101", "--toml", "gone.toml", "--value", "[1]"], "gone.toml: No such file"),
    (trdp_send, [PLACE, "--com-id", "2101", "--toml", ".", "--value", "[1]"], ".: Is a directory"),
    (trdp_send, [PLACE, "--com-id", "2101", "--toml", "bad.toml", "--value", "[1]"], "bad.toml: "),
    (trdp_send, [PLACE, "--com-id", "2101", "--toml", "deep.toml", "--value", "[1]"], "deep.toml: "),
    (trdp_send, [PLACE, "--com-id", "2101", "--toml", "none.toml", "--value", "[1]"],
     "none.toml: comId 2101: there is no dataset 7"),
    (trdp_send, [PLACE, "--com-id", "1", "--toml", "node.toml", "--value", "[1]"], "names no dataset for comId 1"),
    (trdp_send, [PLACE, "--com-id", "1", "--toml", "node.toml", "--value", "[1]", "--dataset", "7"],
     "has no dataset 7"),
    (trdp_send, [PLACE, "--com-id", "2101", "--toml", "node.toml", "--value", "[1, [300], 0]"],
     "dataset 5002, element 1, item 0: 300 is no UINT8"),
    (trdp_send, [PLACE, "--com-id", "2101", "--toml", "node.toml", "--value", "0x" + "f" * 9000], "dataset 5002: "),
    (trdp_send, [PLACE, "--com-id", "1", "--data", "00" * 1433], "at most 1432 are carried"),
    (trdp_dump, ["192.0.2.1", "--for-us", "1"], "192.0.2.1:17224: Cannot assign requested address"),
    (trdp_dump, [DUMP, "--for-us", "1", "--toml", "gone.toml"], "gone.toml: No such file"),
    (trdp_dump, [DUMP, "--for-us", "1", "--toml", "bad.toml"], "bad.toml: "),
    (trdp_dump, [DUMP, "--for-us", "1", "--pcapng", "no/file"], "no/file: No such file"),
    (trdp_dump, [DUMP, "--for-us", "1", "--pcapng", "/dev/full"], "No space left on device"),
    (client, [SOURCE, "9", "1", "get 1"], f"nobody is at {SOURCE}:9"),
    (client, ["--stay", SOURCE, "9", "get 1"], f"nobody is at {SOURCE}:9"),
    (client, ["./gone", "1", "get 1"], "./gone: No such file or directory"),
    (client, ["./node.toml", "1", "get 1"], "./node.toml: Connection refused"),
    (client, ["--stay", "./"], "./: Connection refused"),
    (trdp_lua, ["/dev/zero"], "/dev/zero: the file has more than"),
    (trdp_lua, ["gone.toml"], "gone.toml: No such file"), (trdp_lua, ["deep.toml"], "deep.toml: "),
]


def run(tool: types.ModuleType, words: list[str]) -> tuple[int, str]:
    """The status of a tool, and what it says on the error stream."""
    said = io.StringIO()
    with contextlib.redirect_stderr(said), contextlib.redirect_stdout(io.StringIO()):
        try:
            status = tool.main(words)
        except SystemExit as end:
            status = end.code
    return status, said.getvalue()


class Case(unittest.TestCase):
    """A folder with files, in which the tools run."""

    def setUp(self) -> None:
        folder = tempfile.TemporaryDirectory()
        self.addCleanup(folder.cleanup)
        self.addCleanup(os.chdir, os.getcwd())
        os.chdir(folder.name)
        self.write_files()

    def write_files(self) -> None:
        """Writes the files, over which a tool may have written."""
        for name, text in {"node.toml": TOML, **FAULTS}.items():
            pathlib.Path(name).write_text(text)

    def is_sentence(self, name: str, said: str, words: object) -> None:
        """One line was said, by the tool's name."""
        self.assertEqual((said.startswith(f"{name}: "), said.count("\n"), said[-1:]), (True, 1, "\n"), (words, said))


class Traps(Case):
    """Each trap once."""

    def test_words_that_cant_be_meant(self) -> None:
        tables: list[tuple[types.ModuleType, str, list[tuple[list[str], str]]]] = [
            (trdp_send, "trdp_send.py", SEND_TRAPS), (trdp_dump, "trdp_dump.py", DUMP_TRAPS),
            (client, "client.py", CLIENT_TRAPS)]
        for tool, name, traps in tables:
            for words, sentence in traps:
                status, said = run(tool, words)
                self.assertEqual(status, 2, (words, said))
                self.is_sentence(name, said, words)
                self.assertIn(sentence, said)

    def test_the_generator_wants_one_file(self) -> None:
        traps: list[list[str]] = [[], ["node.toml", "node.toml"], ["-"], ["--", "-"], ["--jump"], ["--he"]]
        for words in traps:
            self.assertEqual(run(trdp_lua, words), (2, "usage: trdp_lua.py FILE\n"), words)

    def test_help(self) -> None:
        for name in ("trdp_dump.py", "trdp_lua.py", "trdp_send.py"):
            ran = subprocess.run([sys.executable, "-W", "error", str(PYTHON / name), "--help"], capture_output=True,
                                 text=True, timeout=60)
            self.assertEqual((ran.returncode, ran.stderr), (0, ""), name)
            self.assertTrue(ran.stdout.startswith(f"usage: {name} "), ran.stdout)

    def test_words_that_are_meant_and_cant_be_done(self) -> None:
        for tool, words, sentence in UNDONE:
            status, said = run(tool, words)
            self.assertEqual(status, 1, (words, said))
            self.assertIn(sentence, said.splitlines()[-1], words)

    def test_a_port_that_is_taken(self) -> None:
        with socket.socket(socket.AF_INET, socket.SOCK_DGRAM) as taken:
            taken.bind((DUMP, 17225))
            self.assertEqual(run(trdp_dump, [DUMP, "--for-us", "1"]), (
                1, f"trdp_dump.py: {DUMP}:17225: Address already in use: a program has this port; --beside copies what "
                   "comes to it, as root\n"))

    def test_a_reader_that_ends_and_a_full_device(self) -> None:
        telegram = trdp_telegram.Telegram("Pd", 1).write()
        read, unread = os.pipe()
        os.close(read)
        for into, said in [(unread, "trdp_dump.py: Broken pipe"),
                           (os.open("/dev/full", os.O_WRONLY), "trdp_dump.py: No space left on device")]:
            line = [sys.executable, str(PYTHON / "trdp_dump.py"), DUMP, "--count", "1", "--for-us", "50000000"]
            with subprocess.Popen(line, stdout=into, stderr=subprocess.PIPE, text=True) as dump, \
                    socket.socket(socket.AF_INET, socket.SOCK_DGRAM) as out:
                os.close(into)
                assert dump.stderr is not None
                dump.stderr.readline()
                out.sendto(telegram, (DUMP, 17224))
                self.assertEqual(dump.stderr.read().splitlines(), [said])
        with open("/dev/full", "w") as full:
            ran = subprocess.run([sys.executable, str(PYTHON / "trdp_lua.py"), "node.toml"], stdout=full,
                                 stderr=subprocess.PIPE, text=True, timeout=60)
        self.assertEqual((ran.returncode, ran.stderr), (1, "trdp_lua.py: No space left on device\n"))


def packet_of(data: bytes, length: int | None = None, words: int = 5, version: int = 4) -> bytes:
    """An IP packet that carries a datagram."""
    udp = struct.pack(">4H", 9, 17224, 8 + len(data) if length is None else length, 0)
    head = bytes([version << 4 | words]) + bytes(11) + socket.inet_aton(SOURCE) + socket.inet_aton(DUMP)
    return head.ljust(words * 4, b"\0") + udp + data


def drops_at(place: tuple[str, int]) -> list[int]:
    """How many datagrams the system dropped at each socket that has that UDP port."""
    number, = struct.unpack("=I", socket.inet_aton(place[0]))
    rows = [it.split() for it in pathlib.Path("/proc/net/udp").read_text().splitlines()]
    return [int(it[-1]) for it in rows if it[1] == f"{number:08X}:{place[1]:04X}"]


def is_asleep(number: int) -> bool:
    """Whether a process waits for something."""
    return pathlib.Path(f"/proc/{number}/stat").read_text().rpartition(")")[2].split()[0] == "S"


class Unread(Case):
    """What couldn't be read is counted, and ends nothing."""

    def test_packets(self) -> None:
        whole = packet_of(b"abc")
        found = trdp_ports.Datagram((SOURCE, 9), (DUMP, 17224), b"abc")
        for packet, wanted in [
            (whole, found), (packet_of(b"abc", words=15), found), (whole + b"more", found),
            (packet_of(b"abc", 10), found._replace(data=b"ab")), (packet_of(b""), found._replace(data=b"")),
            *[(whole[:end], None) for end in range(len(whole))], (packet_of(b"abc", 12), None),
            (packet_of(b"", 7), None),
            (packet_of(b"abc", words=4), None), (packet_of(b"abc", version=6), None),
            (packet_of(b"", words=15)[:67], None),
        ]:
            self.assertEqual(trdp_ports.datagram_of(packet), wanted, packet)

    def test_a_socket_that_has_nothing_after_all(self) -> None:
        with contextlib.ExitStack() as stack:
            ports = trdp_ports.Ports(trdp_ports.Where(DUMP, (), trdp_words.Interface(), (0, 0)), stack)
            bound = mock.Mock()
            bound.recvmsg.side_effect = [BlockingIOError(11, "again"), (b"abc", [], 0, (SOURCE, 9)),
                                         OSError(101, "unreachable")]
            stack.enter_context(mock.patch.object(
                ports.selector, "select", lambda _: [(mock.Mock(data=(bound, (DUMP, 7))), 1)]))
            taken = [it for _ in range(3) for it in ports.take(1)]
        wanted = trdp_ports.Datagram((SOURCE, 9), (DUMP, 7), b"abc")
        self.assertEqual([it._replace(time_us=0) for it in taken], [wanted])
        self.assertEqual(ports.unread, 2)

    @unittest.skipUnless(os.geteuid() == 0, "root alone sends packets as they shall be")
    def test_a_wrong_check_sum_and_a_packet_without_a_header(self) -> None:
        telegram = trdp_telegram.Telegram("Pd", 1, payload=bytes(100)).write()
        wrong = struct.pack(">4H", 9, 17224, 8 + len(telegram), 1) + telegram
        cases: list[tuple[list[str], list[bytes], int]] = [([], [wrong], 1), (["--beside"], [b"", b"abcde"], 2)]
        for words, packets, count in cases:
            line = [sys.executable, "-W", "error", str(PYTHON / "trdp_dump.py"), DUMP, "--count", "1", *words]
            with subprocess.Popen(line, stdout=subprocess.PIPE, stderr=subprocess.PIPE, text=True) as dump, \
                    socket.socket(socket.AF_INET, socket.SOCK_RAW, socket.IPPROTO_UDP) as raw, \
                    socket.socket(socket.AF_INET, socket.SOCK_DGRAM) as out:
                assert dump.stderr is not None
                dump.stderr.readline()
                for packet in packets:
                    raw.sendto(packet, (DUMP, 0))
                if not words:
                    # The system doesn't tell of a wrong one where a right one is there behind it.
                    testing.wait_until(lambda: drops_at((DUMP, 17224)) == [1] and is_asleep(dump.pid))
                out.sendto(telegram, (DUMP, 17224))
                said, told = dump.communicate(timeout=60)
            self.assertEqual((dump.returncode, told), (0, f"trdp_dump.py: {count} datagrams couldn't be read\n"))
            self.assertTrue(said.startswith("Pd comId=1 "))
