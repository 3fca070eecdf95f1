"""trdp-view --print over a capture of examples/train: the train is played, and its bridge is listened to."""
from __future__ import annotations

import contextlib
import json
import os
import pathlib
import socket
import struct
import subprocess
import sys
import tempfile
import threading
import time
import unittest
from typing import Any

from made_capture import BEGIN_US, ETHERNET, Caught, pcap
from testing import PROGRAM, PYTHON, TOP

sys.path.insert(0, str(TOP / "examples/train"))
import play  # noqa: E402
import train as numbers  # noqa: E402
from play_network import Refuses  # noqa: E402
from play_train import Train  # noqa: E402

TELEGRAMS = """
[[telegram]]
com_id = 2101
dataset = 5003
name = "doors"
cycle_us = 200000
time_us = 2000000
[[telegram]]
com_id = 2102
dataset = 5003
cycle_us = 200000
[[telegram]]
com_id = 1201
dataset = 0
name = "who is there"
[[telegram]]
com_id = 2201
dataset = 0
"""
# Python has no names for these: all frames, and that those for others come, too.
ETH_P_ALL, SOL_PACKET, PACKET_ADD_MEMBERSHIP, PACKET_MR_PROMISC = 3, 263, 1, 1
PLAYED, REFUSED = 0, 77
"""How the process ends that plays the train: it was played, or the system refuses what it needs."""
DEVICES = [numbers.DOORS[0], numbers.DOORS[1], "10.0.1.31", "10.0.1.32"]


def listen(bridge: socket.socket, caught: list[Caught]) -> None:
    """Takes the frames that pass the bridge, until its socket is closed."""
    with contextlib.suppress(OSError):
        while frame := bridge.recv(65536):
            caught.append(Caught(time.time_ns() // 1000 - BEGIN_US, frame))


def capture(folder: pathlib.Path) -> int:
    """Plays the train in the namespaces of this process, and writes what passes its bridge while all devices are asked
    who is there. Answers how this process ends."""
    try:
        train = Train(PROGRAM, folder)
    except (Refuses, OSError) as fault:
        print(fault)
        return REFUSED
    caught: list[Caught] = []
    try:
        train.start()
        train.steady()
        with socket.socket(socket.AF_PACKET, socket.SOCK_RAW, socket.htons(ETH_P_ALL)) as bridge:
            bridge.bind(("bridge", 0))
            asked = struct.pack("iHH8x", socket.if_nametoindex("bridge"), PACKET_MR_PROMISC, 0)
            bridge.setsockopt(SOL_PACKET, PACKET_ADD_MEMBERSHIP, asked)
            threading.Thread(target=listen, args=(bridge, caught), daemon=True).start()
            train.start_application(train.diagnosis)
            train.wait_for(train.diagnosis, "closed", 0)
    finally:
        train.end()
    (folder / "train.pcap").write_bytes(pcap(ETHERNET, caught))
    return PLAYED


class Captured(unittest.TestCase):
    """What is printed of the train."""

    def printed(self) -> Any:
        """The JSON that is printed of a capture of the train."""
        with tempfile.TemporaryDirectory() as name:
            folder = pathlib.Path(name)
            line = [*play.NAMESPACES, sys.executable, __file__, name]
            with subprocess.Popen(line, env=os.environ | {"PYTHONPATH": os.pathsep.join(sys.path)},
                                  stdin=subprocess.PIPE, stdout=subprocess.PIPE, text=True) as played:
                assert played.stdout is not None
                said = played.stdout.read()
            if played.returncode == REFUSED:
                self.skipTest(f"the train can't be played: {said.strip()}")
            self.assertEqual(played.returncode, PLAYED, said)
            toml = folder / "train.toml"
            toml.write_text((TOP / "examples/train/doors_1.toml").read_text() + TELEGRAMS)
            view = [sys.executable, "-W", "error", "-m", "trdp_view", str(folder / "train.pcap"), "--print"]
            ran = subprocess.run([*view, "--toml", str(toml)], cwd=PYTHON, capture_output=True, timeout=60)
        self.assertEqual((ran.returncode, ran.stderr), (0, b""))
        return json.loads(ran.stdout)

    @unittest.skipIf(play.is_refused(), f"the train can't be played: {play.is_refused()}")
    def test_the_train(self) -> None:
        """The leading door controller is seen, and the request that all devices answer."""
        found = self.printed()
        rows = {(it["com_id"], it["type"], it["source"], it["dest"]): it for it in found["rows"]}
        self.assertEqual(sorted(rows), sorted([
            (2101, "Pd", numbers.DOORS[0], numbers.SEEN), (2102, "Pd", numbers.DOORS[0], numbers.DIAGNOSIS),
            (1201, "Mr", numbers.DIAGNOSIS, numbers.ALL),
            *[(2201, "Mp", it, numbers.DIAGNOSIS) for it in DEVICES]]))
        self.assertEqual([it["marks"] for it in found["rows"]], [[]] * 7)
        self.assertEqual(found["missing"], [])
        doors = rows[2101, "Pd", numbers.DOORS[0], numbers.SEEN]
        self.assertEqual((doors["name"], doors["gaps"], doors["silent"]), ("doors", 0, False))
        self.assertEqual(doors["value"][:3], [1, 4, [0, 0, 0, 2]])
        self.assertAlmostEqual(doors["median_us"], numbers.CYCLE_US, delta=numbers.CYCLE_US / 10)
        session, = found["sessions"]
        self.assertEqual((session["com_id"], session["ended"]), (numbers.WHO, True))
        self.assertEqual([it["type"] for it in session["telegrams"]], ["Mr", "Mp", "Mp", "Mp", "Mp"])
        self.assertEqual(sorted(it["source"] for it in session["telegrams"][1:]), sorted(DEVICES))


if __name__ == "__main__":
    sys.exit(capture(pathlib.Path(sys.argv[1])))
