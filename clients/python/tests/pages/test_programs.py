"""The programs of the documents and the examples, over two daemons on this machine."""
from __future__ import annotations

import re
import subprocess
import sys
import textwrap
from typing import Any
from unittest import mock

import testing
from testing import CONTROL, PD, SECOND
from trdp_slot import Slot
from two_daemons import DESK, DOOR, SINK, Case


class Programs(Case):
    """The programs of docs/PYTHON.md, and examples/control/client.py."""

    def programs(self) -> list[str]:
        """The programs in Python of the page."""
        page = (testing.TOP / "docs/PYTHON.md").read_text()
        blocks = re.findall(r"^    from trdp_slot import .*\n(?:    .*\n|\n)*", page, re.MULTILINE)
        return [textwrap.dedent(it) for it in blocks]

    def test_the_shortest_programs(self) -> None:
        doors, display, *_ = self.programs()
        datasets = "[[dataset]]" + (testing.TOP / "examples/control/door.toml").read_text().partition("[[dataset]]")[2]
        for daemon in self.daemons:
            daemon.end()
        self.daemon(DOOR, datasets)
        self.daemon(DESK, datasets)
        doors = doors.replace("doors.toml", str(self.daemons[2].path)).replace("127.0.0.2:17224", f"{DESK}:{PD}")
        # A slow machine isn't silent, and answers in time.
        display = display.replace("display.toml", str(self.daemons[3].path)).replace("500_000", "1_500_000")
        self.enterContext(mock.patch.dict(Slot.__init__.__kwdefaults__, answer_us=SECOND))
        said: list[Any] = []

        class Enough(Exception):
            """All that the display can say was said."""

        def hear(text: Any) -> None:
            said.append(text)
            if len(said) == 1:
                self.daemons[2].end()
            elif text == "no word of the doors":
                self.daemons[2].start()
                exec(doors)
            elif text == "the doors are back":
                raise Enough

        exec(doors)
        with self.assertRaises(Enough):
            exec(display, {"print": hear})
        self.assertEqual(said[0][0::2], ("Valid", [4, [0, 0, 0, 0], 0]))
        self.assertEqual([it for it in said if isinstance(it, str)], ["no word of the doors", "the doors are back"])

    def test_the_client_of_the_examples(self) -> None:
        for words, said, status in [
            (["0.6", f"publish 2101 0 100000 0 0 0 {SINK}:{PD}", "put 1 0400", "get 7"],
             "0 handle 1\n0 done\n0 refused NoHandle\n", 0),
            (["0.6", "put 1", "call 0 get 1"], "line fault Count\nline fault Unknown\n", 0),
            (["0.6", "subscribe 1 0 0.0.0.0 0.0.0.0 0.0.0.0 0 0 1000 keep"], "0 handle 2\n0 silent 2\n", 0),
            (["0.05", "#"], "", 1), (["0.05"], "", 2), (["x", "get 1"], "", 2),
        ]:
            line = [sys.executable, "-W", "error", str(testing.TOP / "examples/control/client.py"), DOOR, str(CONTROL)]
            ran = subprocess.run([*line, *words], capture_output=True, text=True, timeout=20)
            self.assertEqual((ran.stdout, ran.returncode), (said, status), ran.stderr)
