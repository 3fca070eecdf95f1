"""trdp_import.py: what it writes and reports. The files of import/ were written by hand, before there was an importer:
the XML after the schema of IEC 61375-2-3, and beside each what a right import gives."""
from __future__ import annotations

import contextlib
import io
import pathlib
import tempfile
import unittest
from typing import NamedTuple

import trdp_import

FILES = pathlib.Path(__file__).resolve().parent / "import"
# The folders of import/: the file of each, and the words of the command line.
EXPECTED = {
    "doors": ("doors.xml", "--hosts", str(FILES / "hosts")),
    "leader": ("leader.xml",),
    "follower": ("follower.xml",),
    "desk_eth0": ("desk.xml", "--hosts", str(FILES / "hosts"), "--interface", "eth0"),
    "desk_eth1": ("desk.xml", "--interface", "eth1", "--slot", "video=2601,3101,2603", "--slot", "log=2602,2601",
                  "--bytes", "2602", "--port", "19000"),
    "wheels": ("wheels.xml",),
}


class Imported(NamedTuple):
    """What an import gives: the exit status, the report, the error stream, and the files."""

    status: int
    report: list[str]
    error: str
    files: dict[str, str]

    def lines(self, slot: str = "a") -> list[str]:
        """The calls of a slot, without the first line of its file."""
        return self.files[f"{slot}.lines"].splitlines()[1:]


def run(data: bytes, *words: str, folder: str = "folder") -> Imported:
    """Imports a file with these bytes."""
    with tempfile.TemporaryDirectory() as made:
        path, out, error = pathlib.Path(made), io.StringIO(), io.StringIO()
        (path / "device.xml").write_bytes(data)
        with contextlib.redirect_stdout(out), contextlib.redirect_stderr(error), contextlib.chdir(path):
            status = trdp_import.main(["device.xml", "-o", folder, *words])
        files = {it.name: it.read_text("utf-8") for it in (path / folder).glob("*")}
        beside = sorted(it.name for it in path.iterdir() if it.name not in ("device.xml", folder))
    if beside:
        raise AssertionError(f"there is {beside}, too")
    return Imported(status, out.getvalue().splitlines(), error.getvalue(), files)


def device(telegrams: str, datasets: str = "", interface: str = 'host-ip="10.0.0.1"', more: str = "") -> bytes:
    """A device configuration, on one line."""
    return (f'<device host-name="a"><bus-interface-list><bus-interface network-id="1" name="e" {interface}>{telegrams}'
            f'</bus-interface></bus-interface-list>{more}<data-set-list>{datasets}</data-set-list></device>').encode()


def telegram(kind: str, within: str, more: str = "", com_id: int = 5) -> str:
    """A telegram."""
    return f'<telegram name="t" com-id="{com_id}" type="{kind}" {more}>{within}</telegram>'


def places(*uris: str) -> str:
    """Destinations."""
    return "".join(f'<destination uri="{it}"/>' for it in uris)


def data_set(number: int, *elements: str) -> str:
    """A dataset. Each element is its attributes."""
    return f'<data-set id="{number}">{"".join(f"<element {it}/>" for it in elements)}</data-set>'


PD, MD = '<pd-parameter cycle="1000" timeout="2000"/>', "<md-parameter/>"


class Expected(unittest.TestCase):
    """The files that were written by hand."""

    maxDiff = None

    def test_files_and_reports(self) -> None:
        """Each import gives the files and the report that were written by hand, and the same bytes a second time."""
        for name, (file, *words) in EXPECTED.items():
            with self.subTest(name):
                wanted = {it.name: it.read_text("utf-8") for it in (FILES / name).iterdir()}
                report = wanted.pop("report").splitlines()
                found = run((FILES / file).read_bytes(), *words)
                self.assertEqual(found.report, report)
                self.assertEqual(found.files, wanted)
                self.assertEqual((found.status, found.error), (3 if any("loss" in it for it in report) else 0, ""))
                self.assertEqual(run((FILES / file).read_bytes(), *words), found)


class Rules(unittest.TestCase):
    """What the files of import/ do not have."""

    maxDiff = None

    def test_calls(self) -> None:
        """Telegrams become these calls, with these lines of the report."""
        rows: list[tuple[str, bytes, list[str], list[str]]] = [
            ("a user that is too long", device(telegram("sink", MD + places(33 * "u" + "@10.0.0.1"))),
             ["# t", "# listen 5 0.0.0.0 0.0.0.0 10.0.0.1 URI 0 0"],
             [f"loss: line 1, the user {33 * 'u'} has more than 32 bytes: each call with it is a remark"]),
            ("a user without a host", device(telegram("sink", MD + places("u@"))),
             ["# t", "listen 5 0.0.0.0 0.0.0.0 0.0.0.0 75 0 0"], []),
            ("no time-out anywhere", device(telegram("sink", "<pd-parameter/>")),
             ["# t", "subscribe 5 0 0.0.0.0 0.0.0.0 0.0.0.0 0 0 100000 zero"],
             ["note: line 1, no time-out is given, and 100000 is the standard's"]),
            ("any source", device(telegram("sink", PD + '<source uri1="0.0.0.0"/>')),
             ["# t", "subscribe 5 0 0.0.0.0 0.0.0.0 0.0.0.0 0 0 2000 zero"], []),
            ("any source, and one", device(telegram("sink", PD + '<source uri1="0.0.0.0" uri2="10.0.0.9"/>')),
             ["# t", "subscribe 5 0 0.0.0.0 0.0.0.0 0.0.0.0 0 0 2000 zero"],
             ["loss: line 1, the range 0.0.0.0 to 10.0.0.9 accepts other addresses, too"]),
            ("a second URI that is none", device(telegram("sink", PD + '<source uri1="10.0.0.9" uri2="0.0.0.0"/>')),
             ["# t", "subscribe 5 0 10.0.0.9 10.0.0.9 0.0.0.0 0 0 2000 zero"], []),
            ("only a second URI", device(telegram("sink", PD + '<source uri2="10.0.0.9"/>')),
             ["# t", "subscribe 5 0 10.0.0.9 10.0.0.9 0.0.0.0 0 0 2000 zero"], []),
            ("process data and messages", device(telegram("source", PD + MD + places("10.0.0.2"))),
             ["# t", "publish 5 0 1000 0 0 0 10.0.0.2:17224",
              "# t: request 5 SESSION 1 5000000 - - 0 0 10.0.0.2:17225 HEX"], []),
            ("a request to a group, and to no one", device(telegram("source", MD + places("239.0.0.1", ""))),
             ["# t: request 5 SESSION 0 5000000 - - 0 0 239.0.0.1:17225 HEX",
              "# t: request 5 SESSION 1 5000000 - - 0 0 PLACE HEX"], []),
            ("a source without a destination, and a cycle of 0",
             device(telegram("source", '<pd-parameter cycle="0"/>')),
             ["# t", "publish 5 0 0 0 0 0 0.0.0.0:17224"], []),
            ("two com-parameters for one comId",
             device(telegram("source", PD + places("10.0.0.2"), 'com-parameter-id="7"')
                    + telegram("source", PD + places("10.0.0.3")),
                    more='<com-parameter-list><com-parameter id="7" qos="6"/></com-parameter-list>'),
             ["# t", "publish 5 0 1000 0 0 0 10.0.0.2:17224", "# t_2", "publish 5 0 1000 0 0 0 10.0.0.3:17224"],
             ["loss: line 1, comId 5 has a second class of service or TTL: qos.nft has the first",
              "note: line 1, the name 't' is written t_2"]),
        ]
        for what, data, lines, report in rows:
            with self.subTest(what):
                found = run(data)
                self.assertEqual((found.lines(), found.report), (lines, report))
                self.assertEqual((found.status, found.error), (3 if any("loss" in it for it in report) else 0, ""))

    def test_limits(self) -> None:
        """Whatever is beyond a limit of the node is a loss."""
        groups = "".join(telegram("sink", PD + places(f"239.0.0.{it}"), com_id=it) for it in range(1, 34))
        roles = "".join(telegram("source", f'<pd-parameter redundant="{it}"/>' + places("10.0.0.2"), com_id=it)
                        for it in (*range(1, 256), 300))
        pairs = 257 * '<source uri1="10.0.0.2"/>' + places(*257 * ["10.0.0.1"])
        anyone = "".join(telegram("sink", MD, com_id=it) for it in range(33))
        for what, data, line, loss in [
            ("33 groups", device(groups), "# subscribe 33 0 0.0.0.0 0.0.0.0 239.0.0.33 0 0 2000 zero",
             "a node has at most 32 groups: each call with 239.0.0.33 is a remark"),
            ("257 publishers", device(telegram("source", PD + places(*257 * ["10.0.0.2"]))),
             "publish 5 0 1000 0 0 0 10.0.0.2:17224", "slot a has at most 256 publishers: 1 of 257 are left out"),
            ("257 times 257 pairs", device(telegram("sink", PD + pairs)),
             "subscribe 5 0 10.0.0.2 10.0.0.2 10.0.0.1 0 0 2000 zero",
             "slot a has at most 256 subscriptions: 65793 of 66049 are left out"),
            ("264 repliers", device(anyone), "listen 32 0.0.0.0 0.0.0.0 0.0.0.0 - 0 0",
             "slot a has at most 256 repliers, and not 264"),
            ("257 callers", device("".join(telegram("source", MD, com_id=it) for it in range(257))),
             "# t_256: request 255 SESSION 1 5000000 - - 0 0 PLACE HEX",
             "t_257 is left out: no slot has room for its objects"),
            ("256 redundancy groups", device(roles), "# publish 300 0 0 GROUP 0 0 10.0.0.2:17224",
             "redundant 300: all 255 redundancy groups are taken, so each call of it is a remark"),
        ]:
            with self.subTest(what):
                found = run(data)
                self.assertEqual((found.status, found.lines()[-1]), (3, line))
                self.assertEqual([it for it in found.report if it.startswith("loss")], [f"loss: line 1, {loss}"])

    def test_datasets(self) -> None:
        """A dataset that a node cannot have is a loss, and its telegrams carry dataset 0."""
        nested = "".join(data_set(it, f'type="{it + 1}"') for it in range(40, 45)) + data_set(45, 'type="UINT8"')
        byte = 'type="UINT8"'
        for what, number, datasets, loss in [
            ("a number of the basic types", 30, data_set(30, byte), "dataset 30: a dataset's number is at least 31"),
            ("no elements", 40, data_set(40), "dataset 40: a dataset has 1 to 256 elements, and not 0"),
            ("257 elements", 40, data_set(40, *257 * [byte]),
             "dataset 40: a dataset has 1 to 256 elements, and not 257"),
            ("6 deep", 40, nested, "dataset 40: datasets nest at most 5 deep"),
            ("a long array", 40, data_set(40, f'{byte} array-size="65536"'),
             "dataset 40, element 0: an array has at most 65535 values"),
            ("many bytes", 40, data_set(40, 'type="UINT64" array-size="8174"'),
             "dataset 40: a dataset has at most 65388 bytes"),
            ("a count of CHAR8", 40, data_set(40, 'type="CHAR8"', f'{byte} array-size="0"'),
             "dataset 40, element 1: no count is directly before this array"),
            ("an array as a count", 40, data_set(40, f'{byte} array-size="2"', f'{byte} array-size="0"'),
             "dataset 40, element 1: no count is directly before this array"),
        ]:
            with self.subTest(what):
                found = run(device(telegram("sink", PD, f'data-set-id="{number}"'), datasets))
                self.assertEqual(found.lines(), ["# t", "subscribe 5 0 0.0.0.0 0.0.0.0 0.0.0.0 0 0 2000 zero"])
                self.assertIn(f"loss: line 1, {loss}, so its telegrams carry dataset 0", found.report)
                self.assertNotIn("[[dataset]]", found.files["node.toml"])

    def test_long_and_many_datasets(self) -> None:
        """A dataset that is too long for process data, or is beyond the 256 of a node, is not carried."""
        long = device(telegram("sink", PD, 'data-set-id="40"') + telegram("sink", MD, 'data-set-id="40"', 6),
                      data_set(40, 'type="UINT8" array-size="1433"'))
        found = run(long)
        self.assertEqual(found.report, [
            "loss: line 1, dataset 40 is longer than process data carries, so dataset 0 is carried",
            "note: line 1, the name 't' is written t_2"])
        self.assertEqual(found.lines()[1], "subscribe 5 0 0.0.0.0 0.0.0.0 0.0.0.0 0 0 2000 zero")
        self.assertIn("com_id = 6\ndataset = 40\n", found.files["node.toml"])
        many = "".join(telegram("sink", PD, f'data-set-id="{it}"', it) for it in range(40, 296))
        many += telegram("source", MD, 'data-set-id="296"', 296)
        found = run(device(many, "".join(data_set(it, 'type="UINT8"') for it in range(40, 297))))
        self.assertEqual(found.files["node.toml"].count("[[dataset]]"), 256)
        self.assertIn("loss: line 1, a node has at most 256 datasets, so dataset 0 is carried, and not 296",
                      found.report)

    def test_names_and_numbers(self) -> None:
        """Names are spelled and cut, a scale of 0 and what of a unit can't be seen are left out."""
        found = run(device(
            f'<telegram name="{300 * "n"}" com-id="5" type="sink" data-set-id="40"><pd-parameter/></telegram>',
            data_set(40, 'type="INT8" name="a-b" unit=" a&#10;&quot;\\ &#x202e;" scale=".50" offset="-1e0"',
                     'type="INT8" name="A b" scale="0"')))
        self.assertEqual(found.lines()[0], f"# {200 * 'n'}")
        self.assertIn('    { name = "a_b", type = "INT8", unit = "a \\"\\\\", scale = 0.5, offset = -1 },\n'
                      '    { name = "A_b_2", type = "INT8" },\n', found.files["node.toml"])
        self.assertIn("note: line 1, dataset 40, element 1: a scale of 0 is left out", found.report)
        self.assertIn("note: line 1, the name 'A b' is written A_b_2", found.report)

    def test_hosts(self) -> None:
        """A file of hosts gives the own address, too; the first line of a name holds."""
        sink = telegram("sink", PD + '<source uri1="B.c"/>' + places("A"))
        with tempfile.TemporaryDirectory() as folder:
            hosts = pathlib.Path(folder) / "hosts"
            for lines, own, sender in [
                ("10.0.0.7 a\n10.0.0.8\tx  b.C # b.c\n10.0.0.9 b.c\n", "10.0.0.7", "10.0.0.8"),
                ("\n# 1.2.3.4 a\n::1 a\nfe80::1%eth0 a\r\n10.0.0.7 A b.c\r\n", "10.0.0.7", "10.0.0.7"),
                ("\ufeff10.0.0.7 a b.c\n", "10.0.0.7", "10.0.0.7"),
            ]:
                hosts.write_text(lines)
                found = run(device(sink, interface='host-ip="0.0.0.0"'), "--hosts", str(hosts))
                self.assertEqual((found.report, found.status), ([], 0))
                self.assertEqual(found.lines()[1], f"subscribe 5 0 {sender} {sender} {own} 0 0 2000 zero")
                self.assertIn(f'address = "{own}"', found.files["node.toml"])
            for text, fault in [("10.0.0.7 a\n10.0.0 b\n", "line 2: 10.0.0 is no address, as 10.0.0.2"),
                                (None, "No such file or directory")]:
                hosts.unlink()
                if text:
                    hosts.write_text(text)
                found = run(device(sink), "--hosts", str(hosts))
                self.assertEqual((found.status, found.error), (1, f"trdp_import.py: {hosts}: {fault}\n"))

    def test_namespaces(self) -> None:
        """Elements are known by their local names in the root's namespace; what is of another one is left out."""
        sink = telegram("sink", PD)
        all_of_one = device(sink).replace(b"<device ", b'<device xmlns="urn:x" ')
        self.assertEqual(run(all_of_one), run(device(sink)))
        found = run(device(sink + '<x xmlns="urn:x"><telegram/></x><y xmlns="urn:x"/>'))
        self.assertEqual((found.status, found.report), (0, ["note: line 1, the namespace urn:x is left out"]))
        root = device(sink).replace(b"<device ", b'<p:device xmlns:p="urn:x" ').replace(b"</device>", b"</p:device>")
        self.assertEqual((run(root).status, run(root).error),
                         (1, "trdp_import.py: device.xml: line 1: the device has no bus-interface\n"))
