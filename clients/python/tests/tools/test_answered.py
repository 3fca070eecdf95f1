"""The dissector links the telegrams of a session: what each answers, what answers it, and the time between."""
from __future__ import annotations

import pathlib
import shutil
import subprocess
import tempfile
import unittest

from made_capture import RAW_IP, Caught, pcapng
from test_view_print import DESK, DOORS, FIRST, MESSAGES, message
from testing import TOP

# Of each telegram: the frame that it answers, the frames that answer it, and the seconds since that frame.
LINKS = ["||", "|3|", "2|4|0.010000000", "3||0.010000000", "||", "||"]
# A second between two times that no floating-point numbers are: their difference is a bit less than one.
LATER = [message(0, DESK, DOORS, "Mn", FIRST), message(400_000, DESK, DOORS, "Mr", FIRST),
         message(1_400_000, DOORS, DESK, "Mp", FIRST)]


@unittest.skipUnless(shutil.which("tshark"), "tshark isn't there")
class Links(unittest.TestCase):
    """The session of test_view_print.py: a request that is sent again, a query, and its confirmation."""

    def test_a_session(self) -> None:
        """A query answers the repeat of its request, and a confirmation the query."""
        self.assertEqual(links(MESSAGES), LINKS)

    def test_a_whole_second(self) -> None:
        """A time is rounded as a whole, and not only the part behind its seconds."""
        self.assertEqual(links(LATER), ["||", "|3|", "2||1.000000000"])


def links(caught: list[Caught]) -> list[str]:
    """What the dissector says of each packet."""
    with tempfile.TemporaryDirectory() as folder:
        file = pathlib.Path(folder) / "some.pcapng"
        file.write_bytes(pcapng(RAW_IP, caught))
        words = [it for name in ("answers", "answeredBy", "answerTime") for it in ("-e", f"trdp.{name}")]
        line = ["tshark", "-2", "-X", f"lua_script:{TOP}/wireshark/trdp.lua", "-r", str(file), "-T", "fields",
                "-E", "separator=|", *words]
        return subprocess.run(line, capture_output=True, text=True, timeout=60, check=True).stdout.splitlines()
