"""Imported nodes as daemons on this machine: what `trdpd check` says, the calls of their files, values by name between
them, and the applications that --skeleton writes."""
from __future__ import annotations

import os
import pathlib
import shutil
import socket
import subprocess
import sys
import tempfile
import unittest
from typing import Any

from imported_nodes import import_here
from test_import import EXPECTED, FILES, MD, data_set, device, run, telegram
from testing import PROGRAM, PYTHON, SECOND, TOP, Connection, Daemon, wait_until
from trdp_slot import Datasets, Handle, Operator, Restarted, Slot

COMPILERS = [it for it in ("gcc", "clang") if shutil.which(it)]
DESK, PORT = "127.0.8.41", 20548


class Case(unittest.TestCase):
    """Imported nodes, each a daemon and a client of its slot."""

    def setUp(self) -> None:
        self.folder = pathlib.Path(self.enterContext(tempfile.TemporaryDirectory()))
        self.port = 18000
        self.daemons: list[Daemon] = []

    def daemon(self, name: str, *more: str, words: tuple[str, ...] = ()) -> Daemon:
        """The daemon of an imported node, with control ports of its own."""
        config = import_here(name, self.folder, "--port", str(self.port), *more)
        self.port += 200
        daemon = Daemon(config.read_text(), str(config.parent), words)
        self.daemons.append(daemon)
        self.addCleanup(daemon.close)
        return daemon

    def slot(self, name: str) -> tuple[Slot, dict[str, Handle]]:
        """The client of an imported node, and the objects of its file."""
        config = self.daemon(name).path
        slot = Slot(config, 0, named=True, restore=True, answer_us=SECOND)
        self.addCleanup(slot.close)
        lines, = config.parent.glob("*.lines")
        return slot, slot.declare(lines)

    def shows(self, slot: Slot, handle: Handle, value: Any) -> None:
        """A subscription shows a value at last."""
        wait_until(lambda: bool(slot.get(handle).value == value))


class Nodes(Case):
    """What imported nodes do."""

    def check(self, config: str) -> list[str]:
        """The warnings of `trdpd check`."""
        path = self.folder / "checked.toml"
        path.write_text(config)
        ran = subprocess.run([PROGRAM, "check", str(path)], capture_output=True, text=True, timeout=60)
        self.assertEqual((ran.returncode, ran.stderr), (0, ""))
        return [it for it in ran.stdout.splitlines() if it.startswith("warning")]

    def test_check(self) -> None:
        """`trdpd check` warns of nothing, except of a dataset that only messages carry."""
        for name in EXPECTED:
            with self.subTest(name):
                self.assertEqual(self.check((FILES / name / "node.toml").read_text("utf-8")), [])
        long = device(telegram("sink", MD, 'data-set-id="40"'), data_set(40, 'type="UINT8" array-size="1433"'))
        warning, = self.check(run(long).files["node.toml"])
        self.assertRegex(warning, "no telegram of process data carries dataset 40")

    def test_values_by_name(self) -> None:
        """Values by name go from the doors to the desk, and from the leader to the follower and to the desk."""
        (doors, of_doors), (desk, of_desk), (leader, of_leader), (follower, of_follower) = map(
            self.slot, ("doors", "desk_eth0", "leader", "follower"))
        status = {"state": [0, 2, 1], "obstacles": 7, "temperature": 21.5}
        doors.put(of_doors["status"], status)
        self.shows(desk, of_desk["status"], {"doors": 3, **status})
        leader.put(of_leader["alive"], {"inside": -5})
        self.shows(follower, of_follower["alive"], {"inside": -5})
        climate = {"inside": 21.5, "outside": -3.25, "fans": [1, 2, 3]}
        leader.put(of_leader["climate"], climate)
        self.assertEqual(desk.get(of_desk["climate"]).counter, 0)
        self.assertNotEqual(desk.get(of_desk["climate"]).state, "Valid")
        with Operator("127.0.0.1", 18500) as operator:
            operator.role(7, True)
        self.shows(desk, of_desk["climate"], climate)

    def test_nested_values(self) -> None:
        """A value of nested datasets, with reals and arrays, arrives by its names."""
        wheels, made = self.slot("wheels")
        axle: dict[str, Any] = {"speed": 81.5, "distance": 1e9 + 0.5, "slip": False, "torque": -1234}
        axles = [axle, {**axle, "slip": True}]
        train = {"bogies": [{"number": it, "axles": axles, "locked": it == 1} for it in range(2)],
                 "text": "Zürich", "line": "S 12", "forces": [0.5, -0.25, float("inf")]}
        samples: dict[str, Any] = {"few": [1.5], "many": [2.5, -2.5], "flags": [True, False, 3],
                                   "pairs": [True, True, False, False], "times": [(1, 2), (3, 4)]}
        with socket.socket(socket.AF_INET, socket.SOCK_DGRAM) as port:
            port.bind((DESK, PORT))
            port.settimeout(20)
            for name, com_id, value, counts in [
                ("train", 2701, train, {"bogie_count": 2}),
                ("samples", 2702, samples, {"n8": 1, "n32": 2, "m8": 3, "u32": 2}),
            ]:
                wheels.put(made[name], value)
                data = port.recv(2000)
                while int.from_bytes(data[8:12]) != com_id:
                    data = port.recv(2000)
                dataset = wheels.datasets.com_ids[com_id]
                found = wheels.datasets.unpack(dataset, data[40:40 + int.from_bytes(data[20:24])])
                self.assertEqual(found, {**value, **counts})

    def test_the_file_is_for_a_socket_too(self) -> None:
        """Each line of a file is a call or a remark at a control port."""
        for name in ("doors", "desk_eth0"):
            with self.subTest(name):
                controls = self.folder / f"{name}.controls"
                controls.mkdir()
                daemon = self.daemon(name, words=("--controls", str(controls)))
                lines, = (self.folder / name).glob("*.lines")
                data = lines.read_bytes()
                calls = [it for it in data.splitlines() if not it.startswith(b"#")]
                end = Connection(str(controls / str(self.port - 200)))
                self.addCleanup(end.close)
                end.say(*data.splitlines(), b"get 0")
                found = [end.hear().decode() for _ in range(len(calls) + 1)]
                self.assertEqual(found, [*(f"0 handle {it + 1}\n" for it in range(len(calls))), "0 refused NoHandle\n"])
                end.close()
                daemon.close()

    def test_objects_are_made_again(self) -> None:
        """The objects of a file are made again after a restart, with their values."""
        doors, made = self.slot("doors")
        desk, of_desk = self.slot("desk_eth0")
        status = {"doors": 1, "state": [2], "obstacles": 0, "temperature": -1.0}
        doors.put(made["status"], status)
        self.shows(desk, of_desk["status"], status)
        self.daemons[0].end()
        wait_until(lambda: desk.get(of_desk["status"]).state == "Silent")
        self.daemons[0].start()
        self.assertFalse(doors.check())
        told = next(it for it in doors.indications(20 * SECOND) if isinstance(it, Restarted))
        self.assertEqual(list(told.declared), list(made.values()))
        wait_until(lambda: desk.get(of_desk["status"]).state == "Valid")


class Skeletons(Case):
    """The applications of --skeleton, in slots of two nodes."""

    NODES = (("desk_eth0", "desk", 0), ("desk_eth1", "log", 1))

    def runs(self, command: list[str], name: str, number: int) -> list[str]:
        """An application runs beside its node: it makes all objects of its file, and shows each subscription. Returns
        what it says of these."""
        folder = self.folder / name
        title = Datasets.from_toml(folder / "node.toml").slot_names[number]
        lines = (folder / f"{title}.lines").read_text().splitlines()
        calls = [it for it in lines if not it.startswith("#")]
        shown = [name[2:] for name, call in zip(lines, lines[1:]) if call.startswith("subscribe ")]
        settings = {**os.environ, "PYTHONPATH": str(PYTHON), "PYTHONWARNINGS": "error"}
        with subprocess.Popen(command, cwd=self.folder, env=settings, stdout=subprocess.PIPE, text=True) as running:
            self.addCleanup(running.kill)
            assert running.stdout is not None
            said: dict[str, str] = {}
            while len(said) < len(shown) and (line := running.stdout.readline()):
                first, _, rest = line.rstrip("\n").partition(" ")
                said |= {first: rest} if first in shown else {}
            with Operator("127.0.0.1", self.port - 100) as operator:
                self.assertEqual(sum(operator.slots()[number].objects), len(calls))
            running.kill()
        self.assertEqual(list(said), shown)
        return list(said.values())

    def test_python(self) -> None:
        """The application in Python puts zeros, and prints what it hears."""
        for name, slot, number in self.NODES:
            with self.subTest(name):
                daemon = self.daemon(name, "--skeleton")
                program = self.folder / name / f"{slot}_skeleton.py"
                for shown in self.runs([sys.executable, str(program)], name, number):
                    self.assertRegex(shown, r"^Value\(state='(Never|Silent)', counter=0, value=.*\)$")
                daemon.close()

    @unittest.skipUnless(COMPILERS, "there is no compiler of C")
    def test_c(self) -> None:
        """The application in C compiles without a warning, puts zeros, and prints what it hears."""
        for name, slot, number in self.NODES:
            daemon = self.daemon(name, "--skeleton")
            for compiler in COMPILERS:
                with self.subTest(name, compiler=compiler):
                    program = self.folder / f"{slot}.{compiler}"
                    line = [compiler, "-std=c99", "-pedantic", "-Wall", "-Wextra", "-Werror", "-O1", "-I",
                            str(TOP / "clients/c"), "-o", str(program), str(self.folder / name / f"{slot}_skeleton.c")]
                    ran = subprocess.run(line, capture_output=True, text=True, timeout=60)
                    self.assertEqual((ran.returncode, ran.stderr), (0, ""))
                    for shown in self.runs([str(program)], name, number):
                        self.assertRegex(shown, r"^(Never|Silent) \d+ bytes$")
            daemon.close()

    def test_zeros_are_sent(self) -> None:
        """What the application of the doors puts arrives at the desk as zeros."""
        desk, made = self.slot("desk_eth0")
        self.daemon("doors", "--skeleton")
        line = [sys.executable, str(self.folder / "doors/doors_1_skeleton.py")]
        settings = {**os.environ, "PYTHONPATH": str(PYTHON)}
        with subprocess.Popen(line, stdout=subprocess.DEVNULL, env=settings) as running:
            self.addCleanup(running.kill)
            wait_until(lambda: desk.get(made["status"]).state == "Valid")
            self.assertEqual(desk.get(made["status"]).value,
                             {"doors": 0, "state": [], "obstacles": 0, "temperature": 0.0})
            running.kill()
