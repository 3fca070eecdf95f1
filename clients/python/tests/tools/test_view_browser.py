"""The page of trdp-view in a real browser. TRDP_SCREENSHOT=FILE in the environment saves what it shows in the end."""
from __future__ import annotations

import json
import os
import pathlib
import tempfile
import unittest
from typing import Any

import browser
from made_capture import RAW_IP, pcap
from running_view import View
from test_view_page import NETWORK, SESSION
from test_view_print import CAUGHT
from testing import MD, PD, wait_until
from two_daemons import DESK, DOOR, SINK, Case

# The texts of all lines: each cell has two.
LINES = ("[...document.querySelectorAll('#rows tbody tr')].map((it) => "
         "[...it.querySelectorAll('td > span')].map((part) => part.textContent))")
STATE, TELEGRAM, NAME, SOURCE, DEST, VALUE, COUNT = 0, 2, 3, 4, 5, 6, 8
LABELS = "[...document.querySelectorAll('#cycle-plot .dygraph-axis-label-x')].map((it) => it.textContent).join()"
LADDER = "[...document.querySelectorAll('#ladder text')].map((it) => it.textContent)"
# Events of a test's own, instead of those of the server.
OWN_EVENTS = """
window.EventSource = class extends EventTarget {
  constructor() {
    super();
    window.tell = (told) => this.dispatchEvent(new MessageEvent("message", { data: JSON.stringify(told) }));
  }
};
"""
EVENT = {"version": 1, "now_us": 1, "sessions": [], "missing": [], "faults": [], "unread": 0, "left_out": 0,
         "dropped": 0, "is_over": True}
ROW: dict[str, Any] = {
    "source": DOOR, "dest": SINK, "type": "Pd", "name": None, "text": "", "marks": [], "marked": {}, "count": 1,
    "gaps": 0, "repeats": 0, "restarts": 0, "lost": 0, "latest_us": 1, "bytes_per_second": 0, "silent": False,
}


@unittest.skipUnless(browser.PROGRAM, browser.MISSING)
class Page(Case):
    """The page, of two daemons that send to its address."""

    def setUp(self) -> None:
        super().setUp()
        folder = tempfile.TemporaryDirectory()
        self.addCleanup(folder.cleanup)
        toml = pathlib.Path(folder.name) / "network.toml"
        toml.write_text(NETWORK)
        self.view = View(SINK, "--pd-port", str(PD), "--md-port", str(MD), "--toml", str(toml))
        self.addCleanup(self.view.close)
        self.page = browser.Browser()
        self.addCleanup(self.page.close)
        self.page.visit(self.view.address)

    def line(self, com_id: int) -> list[str]:
        """The texts of the line of a comId."""
        return next((it for it in self.page.value(LINES) if it[TELEGRAM].split()[0] == str(com_id)), [""] * 9)

    def test_all(self) -> None:
        """A publisher that ends turns silent, a ladder shows a repeat, a zoom works, and names are text."""
        status = self.door.publish(2101, f"{SINK}:{PD}", dataset=1001, cycle_us=50_000)
        self.door.put(status, [2, [125, 130]])
        wait_until(lambda: self.line(2101)[STATE] == "ok")
        line = self.line(2101)
        self.assertEqual([line[it] for it in (TELEGRAM, NAME, SOURCE, DEST)],
                         ["2101 Pd", "<script>alert(1)</script>", DOOR, f"\u2192 {SINK}"])
        self.assertIn("speeds: [12.5, 13.0] km/h", line[VALUE])
        self.assertEqual(self.line(2102)[STATE], "never seen")
        self.page.value("document.querySelector('#rows tbody tr:not(.bad)').click()")
        self.page.wait("document.querySelectorAll('#series input').length === 3")
        self.page.wait("document.querySelectorAll('#fields tr').length === 11")
        self.assertEqual(self.page.value("document.querySelector('#payload h3').textContent"), "Value of <script>")

        wait_until(lambda: int(self.line(2101)[COUNT]) > 30)
        self.door.unpublish(status)
        wait_until(lambda: self.line(2101)[STATE] == "silent")
        self.zoom()
        self.ladder()
        self.save()
        self.filter_and_pause()
        self.assertEqual(self.page.value("document.querySelectorAll('main script').length"), 0)
        self.assertEqual(self.page.said, [])
        if path := os.environ.get("TRDP_SCREENSHOT"):
            self.page.screenshot(pathlib.Path(path))

    def zoom(self) -> None:
        """Drags over a part of a plot, and then has it show all."""
        whole = self.page.value(LABELS)
        self.assertNotEqual(whole, "")
        self.page.drag("#cycle-plot canvas:last-of-type", 0.4, 0.6)
        self.page.wait(f"{LABELS} !== {json.dumps(whole)}")

    def save(self) -> None:
        """Plots, the ladder and what came are saved as files."""
        for selector, pattern, begin in [
            ("#cycle-csv", "*cycle.csv", b"time_us,ms\r\n1"), ("#cycle-png", "*cycle.png", b"\x89PNG\r\n"),
            ("#value-csv", "*value.csv", b'time_us,n,"speeds[0], km/h","speeds[1], km/h"\r\n1'),
            ("#ladder-svg", "ladder.svg", b"<svg "), ("#capture", "trdp-view.pcapng", b"\n\r\r\n"),
        ]:
            self.assertEqual(self.page.saved(selector, pattern)[:len(begin)], begin)

    def ladder(self) -> None:
        """A request without an answer, which is sent twice."""
        self.desk.request(300, f"{SINK}:{MD}", b"who", session=SESSION, time_us=100_000, retries=1)
        self.page.wait(f"{LADDER}.includes('no answer')")
        shown = self.page.value(LADDER)
        self.assertEqual([it for it in shown if it in (DESK, SINK, "Mr 300", "Mr 300 repeat 1", "no answer")],
                         [DESK, SINK, "Mr 300", "Mr 300 repeat 1", "no answer"])
        self.page.value("document.querySelectorAll('#ladder g')[1].dispatchEvent(new MouseEvent('click'))")
        self.page.wait("document.querySelector('#fields').textContent.includes('sessionId')")

    def filter_and_pause(self) -> None:
        """Only the lines that have the words are there; while it pauses nothing changes."""
        self.page.value("document.querySelector('#filter').value = '2102'")
        self.page.value("document.querySelector('#filter').dispatchEvent(new Event('input'))")
        self.assertEqual(self.page.value("document.querySelectorAll('#rows tbody tr:not([hidden])').length"), 1)
        self.page.value("document.querySelector('#pause').click()")
        status = self.door.publish(2102, f"{SINK}:{PD}", cycle_us=50_000)
        self.door.put(status, b"\1")
        wait_until(lambda: any(it["com_id"] == 2102 for it in self.view.json()["rows"]))
        self.assertEqual(self.line(2102)[STATE], "never seen")
        self.page.value("document.querySelector('#pause').click()")
        wait_until(lambda: self.line(2102)[STATE] == "ok")


@unittest.skipUnless(browser.PROGRAM, browser.MISSING)
class Paused(unittest.TestCase):
    """A page that pauses, of a capture."""

    def setUp(self) -> None:
        folder = tempfile.TemporaryDirectory()
        self.addCleanup(folder.cleanup)
        capture = pathlib.Path(folder.name) / "some.pcap"
        capture.write_bytes(pcap(RAW_IP, CAUGHT))
        view = View(str(capture))
        self.addCleanup(view.close)
        self.page = browser.Browser()
        self.addCleanup(self.page.close)
        self.page.call("Page.addScriptToEvaluateOnNewDocument", source=OWN_EVENTS)
        self.page.visit(view.address)
        self.page.wait("'tell' in window")

    def tell(self, *numbers: int, there: list[int] | None = None) -> None:
        """Tells the page of rows, whose comIds are their numbers, and which are there, if some have given way."""
        more = {} if there is None else {"numbers": there, "ids": []}
        rows = [ROW | {"number": it, "com_id": it} for it in numbers]
        self.page.value(f"window.tell({json.dumps(EVENT | {'rows': rows} | more)})")

    def shown(self) -> list[str]:
        """The comIds of all lines."""
        return sorted(it[TELEGRAM].split()[0] for it in self.page.value(LINES))

    def test_rows(self) -> None:
        """What came and went while it paused is so afterwards."""
        self.tell(1, 2, 3)
        self.page.value("document.querySelector('#pause').click()")
        self.tell(4)
        self.tell(5, there=[2, 3, 5])
        self.tell(2, 6)
        self.assertEqual(self.shown(), ["1", "2", "3"])
        self.page.value("document.querySelector('#pause').click()")
        self.assertEqual(self.shown(), ["2", "3", "5", "6"])
        self.assertEqual(self.page.said, [])
