"""The page of trdp-view: what its server tells of two daemons, and what it refuses."""
from __future__ import annotations

import contextlib
import hashlib
import json
import pathlib
import socket
import tempfile
import unittest
import uuid
from typing import Any
from urllib.parse import urlsplit

from made_capture import RAW_IP, pcapng
from running_view import View
from test_view_print import CAUGHT, MESSAGES, ROWS, TOML
from testing import MD, PD, SECOND, wait_until
from trdp_view.server import STREAMS_MOST, THREADS_MOST, WEB
from two_daemons import DESK, DOOR, SINK, Case

HEADERS = {
    "Content-Security-Policy": "default-src 'self'", "Referrer-Policy": "no-referrer", "Cache-Control": "no-store",
    "X-Content-Type-Options": "nosniff",
}
NETWORK = """
[[dataset]]
id = 1001
name = "<script>"
element = [{ type = "UINT8", name = "n" }, { type = "UINT16", size = 0, name = "speeds", unit = "km/h", scale = 0.1 }]
[[telegram]]
com_id = 2101
dataset = 1001
name = "<script>alert(1)</script>"
cycle_us = 50000
[[telegram]]
com_id = 2102
dataset = 0
[[telegram]]
com_id = 300
dataset = 0
"""
SESSION = uuid.UUID(int=5)


class Daemons(Case):
    """What the page is told of two daemons that send to its address."""

    def setUp(self) -> None:
        super().setUp()
        folder = tempfile.TemporaryDirectory()
        self.addCleanup(folder.cleanup)
        toml = pathlib.Path(folder.name) / "network.toml"
        toml.write_text(NETWORK)
        self.view = View(SINK, "--pd-port", str(PD), "--md-port", str(MD), "--toml", str(toml))
        self.addCleanup(self.view.close)

    def rows(self, com_id: int) -> list[dict[str, Any]]:
        """The rows of a comId."""
        return [it for it in self.view.json()["rows"] if it["com_id"] == com_id]

    def talking_row(self, com_id: int) -> dict[str, Any]:
        """The row of a comId once it has had more than five telegrams and isn't silent. On a busy machine a row may be
        silent for a moment between two telegrams, so the row is the one that was looked at."""
        found: list[dict[str, Any]] = []

        def is_talking() -> bool:
            found[:] = [it for it in self.rows(com_id) if it["count"] > 5 and not it["silent"]]
            return bool(found)

        wait_until(is_talking)
        return found[0]

    def test_all(self) -> None:
        """A publisher is there until it ends, a second one is marked, and a request without an answer is repeated."""
        status = self.door.publish(2101, f"{SINK}:{PD}", dataset=1001, cycle_us=50_000)
        self.door.put(status, [2, [125, 130]])
        row = self.talking_row(2101)
        self.assertEqual((row["source"], row["dest"], row["type"], row["name"]),
                         (DOOR, SINK, "Pd", "<script>alert(1)</script>"))
        self.assertEqual((row["value"], row["text"]), (
            {"n": 2, "speeds": [125, 130]}, "{n: 2, speeds: [12.5, 13.0] km/h ([125, 130])}"))
        self.assertEqual((row["marks"], row["cycle_us"]), ([], 50_000))
        self.assertEqual(self.view.json()["missing"], [300, 2102])
        points = self.view.json(f"history.json?row={row['number']}")["points"]
        self.assertEqual(points[0][1], {"n": 2.0, "speeds[0], km/h": 12.5, "speeds[1], km/h": 13.0})

        again = self.desk.publish(2101, f"{SINK}:{PD}", dataset=1001, cycle_us=50_000)
        self.desk.put(again, [0, []])
        wait_until(lambda: [it["marks"] for it in self.rows(2101)] == [["two sources"]] * 2)
        self.door.unpublish(status)
        wait_until(lambda: [it["silent"] for it in self.rows(2101)] == [True, False])

        self.desk.request(300, f"{SINK}:{MD}", b"who", session=SESSION, time_us=100_000, retries=1)
        # Its time is over for a moment before it is sent again.
        wait_until(lambda: [(it["never"], len(it["telegrams"]))
                            for it in self.view.json()["sessions"]] == [(["answer"], 2)])
        session, = self.view.json()["sessions"]
        self.assertEqual((session["session"], session["ended"]), (str(SESSION), False))
        self.assertEqual([(it["type"], it["source"], it["counter"]) for it in session["telegrams"]],
                         [("Mr", DESK, 0), ("Mr", DESK, 1)])
        told = self.view.json(f"telegram.json?session={SESSION}&index=1")
        self.assertIn(["sessionId", str(SESSION)], told["fields"])
        self.assertEqual(told["value"], b"who".hex())

    def test_events(self) -> None:
        """An event tells the rows that changed, at most four times a second."""
        first = self.door.publish(2101, f"{SINK}:{PD}", dataset=1001, cycle_us=20_000)
        self.door.put(first, [0, []])
        # Its second telegram comes long after the events that are looked at, on a busy machine too.
        once = self.door.publish(2102, f"{SINK}:{PD}", cycle_us=4 * SECOND)
        self.door.put(once, b"\1")
        wait_until(lambda: len(self.view.json()["rows"]) == 2)
        with self.view.ask("events") as stream:
            self.assertEqual(stream.getheader("Content-Type"), "text/event-stream")
            events = [json.loads(next(it for it in stream if it.startswith(b"data: "))[6:]) for _ in range(4)]
        self.assertEqual([sorted(it["com_id"] for it in event["rows"]) for event in events],
                         [[2101, 2102], [2101], [2101], [2101]])
        self.assertGreater(events[-1]["now_us"] - events[0]["now_us"], 3 * 250_000 - 1000)


class Served(unittest.TestCase):
    """The page of a capture."""

    def setUp(self) -> None:
        folder = tempfile.TemporaryDirectory()
        self.addCleanup(folder.cleanup)
        self.folder = pathlib.Path(folder.name)
        (self.folder / "node.toml").write_text(TOML)
        (self.folder / "some.pcapng").write_bytes(pcapng(RAW_IP, sorted(CAUGHT + MESSAGES)))
        self.view = View(str(self.folder / "some.pcapng"), "--toml", str(self.folder / "node.toml"))
        self.addCleanup(self.view.close)
        wait_until(lambda: bool(self.view.json()["is_over"]))

    def test_the_page_has_the_rows_that_are_printed(self) -> None:
        """The page's JSON has the rows of --print."""
        rows = {(it["source"], it["com_id"], it["type"]): it for it in self.view.json()["rows"]}
        for wanted in ROWS:
            row = rows[wanted["source"], wanted["com_id"], wanted["type"]]
            self.assertEqual({key: row[key] for key in wanted if key != "silent"},
                             {key: it for key, it in wanted.items() if key != "silent"})

    def test_files(self) -> None:
        """Each file of the page is there, with the headers that keep it to itself."""
        page = self.view.read("").decode()
        for name in ["", "view.css", "view.js", "dygraph.min.js", "dygraph.min.css", "network.json", "begin.json"]:
            with self.view.ask(name) as answer:
                self.assertEqual((name, answer.status), (name, 200))
                self.assertEqual({key: answer.getheader(key) for key in HEADERS}, HEADERS)
        self.assertNotRegex(page, "https?://|style=|<script>[^<]")
        for line in (WEB / "SHA256SUMS").read_text().splitlines():
            digest, name = line.split()
            self.assertEqual(hashlib.sha256(self.view.read(name)).hexdigest(), digest)

    def test_several_browsers(self) -> None:
        """So many pages are told of changes at once, and no more."""
        with contextlib.ExitStack() as stack:
            answers = [stack.enter_context(self.view.ask("events")) for _ in range(STREAMS_MOST + 1)]
            self.assertEqual([it.status for it in answers], [200] * STREAMS_MOST + [503])
            self.assertEqual(self.view.json("begin.json")["title"], "some.pcapng")

    def test_a_port_that_is_taken(self) -> None:
        """Where the page can't be served, a sentence says so."""
        with socket.socket() as taken:
            taken.bind(("127.0.0.1", 0))
            place = f"127.0.0.1:{taken.getsockname()[1]}"
            with self.assertRaisesRegex(AssertionError, f"^trdp-view: {place}: Address already in use\n$"):
                View(SINK, "--http-port", place.partition(":")[2])

    def test_what_is_refused(self) -> None:
        """Another method, another host, another address."""
        cases: list[tuple[str, str, dict[str, str], int]] = [
            ("", "GET", {"Host": "localhost:1234"}, 200), ("", "GET", {"Host": "127.0.0.1"}, 200),
            ("", "GET", {"Host": "evil.example"}, 403), ("", "GET", {"Host": "127.0.0.1.evil.example"}, 403),
            ("", "GET", {"Host": ""}, 403), ("", "POST", {}, 405), ("", "PUT", {}, 405), ("", "HEAD", {}, 405),
            ("../", "GET", {}, 404), ("nothing", "GET", {}, 404), ("../../../etc/passwd", "GET", {}, 404),
            ("history.json?row=x", "GET", {}, 404), ("history.json", "GET", {}, 404),
            ("telegram.json?row=99", "GET", {}, 404), ("telegram.json?session=x&index=0", "GET", {}, 404),
        ]
        for name, method, headers, status in cases:
            with self.view.ask(name, method, **headers) as answer:
                self.assertEqual((name, method, headers, answer.status), (name, method, headers, status))
                self.assertEqual({key: answer.getheader(key) for key in HEADERS}, HEADERS)

    def test_slow_connections(self) -> None:
        """Connections that ask nothing, or slowly, keep no one else from the page."""
        port = urlsplit(self.view.address).port
        assert port is not None
        with contextlib.ExitStack() as stack:
            for _ in range(THREADS_MOST + 6):
                slow = stack.enter_context(socket.create_connection(("127.0.0.1", port), timeout=20))
                slow.sendall(b"GET /")
            self.assertEqual([self.view.json("begin.json")["title"] for _ in range(10)], 10 * ["some.pcapng"])

    def test_a_request_without_a_version(self) -> None:
        """It has all headers in its answer, too."""
        parts = urlsplit(self.view.address)
        assert parts.port is not None
        for line in (f"GET {parts.path}\r\nHost: localhost\r\n\r\n", "GET / x\r\n\r\n"):
            with socket.create_connection(("127.0.0.1", parts.port), timeout=20) as connection:
                connection.sendall(line.encode())
                with connection.makefile("rb") as answer:
                    head = answer.read().partition(b"\r\n\r\n")[0].decode()
            for name, text in HEADERS.items():
                self.assertIn(f"\r\n{name}: {text}", head)

    def test_what_is_kept_is_a_capture(self) -> None:
        """The last minutes are saved as a capture, of which the same is printed."""
        saved = self.folder / "saved.pcapng"
        saved.write_bytes(self.view.read("capture.pcapng"))
        again = View(str(saved), "--toml", str(self.folder / "node.toml"))
        self.addCleanup(again.close)
        wait_until(lambda: bool(again.json()["is_over"]))
        self.assertEqual(again.json()["rows"], self.view.json()["rows"])
