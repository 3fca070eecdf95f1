"""Serves the page at 127.0.0.1, to browsers that know its token."""
from __future__ import annotations

import contextlib
import json
import pathlib
import re
import secrets
import socket
import socketserver
import threading
import urllib.parse
from http import HTTPStatus
from http.server import BaseHTTPRequestHandler, ThreadingHTTPServer
from typing import Any

from .kept import write_pcapng
from .page import NotThere, Page

HOST = "127.0.0.1"
HOSTS = re.compile(r"(127\.0\.0\.1|localhost)(:[0-9]{1,5})?", re.IGNORECASE)
"""What a browser may call this server: with any port, as `ssh -L` has another one."""
HEADERS = {
    "Content-Security-Policy": "default-src 'self'", "Referrer-Policy": "no-referrer", "Cache-Control": "no-store",
    "X-Content-Type-Options": "nosniff",
}
WEB = pathlib.Path(__file__).resolve().parent / "web"
TYPES = {
    ".html": "text/html", ".css": "text/css", ".js": "text/javascript", ".svg": "image/svg+xml", ".txt": "text/plain",
}
EVENT_SECONDS = 0.25
"""How long the server waits between two events: it tells changes four times a second at most."""
QUIET_SECONDS = 5.0
"""After how long without an event a remark is sent, so that a browser that is gone is noticed."""
STREAMS_MOST = 16
"""To how many pages the server tells changes at the same time."""
THREADS_MOST = 64
"""How many requests are served at the same time. If there are more, the one that is slowest to come is given up."""
PATIENCE = 10.0
"""How many seconds a browser may take to send a request, or to take an answer."""


class Server(ThreadingHTTPServer):
    """The server of a page. It is bound when it is made: raises OSError with its place."""

    daemon_threads = True
    request_queue_size = THREADS_MOST

    def __init__(self, port: int, page: Page) -> None:
        self.page = page
        self.token = secrets.token_urlsafe(16)
        self.files = {it.name: it.read_bytes() for it in WEB.iterdir() if it.suffix in TYPES}
        self.streams = threading.BoundedSemaphore(STREAMS_MOST)
        self.lock = threading.Lock()
        self.asking: dict[socket.socket, None] = {}
        """The connections whose requests are not there yet, the one that is waited for longest first."""
        try:
            super().__init__((HOST, port), Handler)
        except OSError as fault:
            raise OSError(fault.errno, fault.strerror, f"{HOST}:{port}") from None

    @property
    def address(self) -> str:
        """The address of the page, which has the token."""
        return f"http://{HOST}:{self.server_port}/{self.token}/"

    def server_bind(self) -> None:
        # The one of HTTPServer asks for the name of this host, which may take long.
        socketserver.TCPServer.server_bind(self)
        self.server_name, self.server_port = HOST, self.server_address[1]

    def process_request(self, request: Any, client_address: Any) -> None:
        if threading.active_count() > THREADS_MOST and not self.end_slowest():
            self.shutdown_request(request)
        else:
            super().process_request(request, client_address)

    def end_slowest(self) -> bool:
        """Ends the connection whose request is waited for longest. Answers whether there was one."""
        with self.lock:
            slowest = next(iter(self.asking), None)
            if slowest is None:
                return False
            del self.asking[slowest]
            with contextlib.suppress(OSError):
                slowest.shutdown(socket.SHUT_RDWR)
            return True

    def begins(self, connection: socket.socket) -> None:
        """The request of a connection is waited for."""
        with self.lock:
            self.asking[connection] = None

    def has_asked(self, connection: socket.socket) -> None:
        """The request of a connection is there, or its end."""
        with self.lock:
            self.asking.pop(connection, None)

    def handle_error(self, request: Any, client_address: Any) -> None:
        """A browser that goes while it is answered is no fault."""


class Handler(BaseHTTPRequestHandler):
    """Answers one request."""

    server: Server
    timeout = PATIENCE
    default_request_version = "HTTP/1.0"
    """A request that names no version is answered with all headers, too."""

    def version_string(self) -> str:
        return "trdp-view"

    def setup(self) -> None:
        super().setup()
        self.server.begins(self.connection)

    def parse_request(self) -> bool:
        try:
            return super().parse_request()
        finally:
            self.server.has_asked(self.connection)

    def finish(self) -> None:
        self.server.has_asked(self.connection)
        super().finish()

    def do_GET(self) -> None:
        hosts = self.headers.get_all("Host") or []
        if len(hosts) != 1 or not HOSTS.fullmatch(hosts[0]):
            self.send_error(HTTPStatus.FORBIDDEN, "this is only for 127.0.0.1 and localhost")
            return
        way, _, asked = self.path.partition("?")
        root, _, name = way.removeprefix("/").partition("/")
        if not way.startswith("/") or not secrets.compare_digest(root.encode(), self.server.token.encode()):
            self.send_error(HTTPStatus.NOT_FOUND, "the address is not the one that trdp-view printed")
            return
        try:
            self.answer(name, dict(urllib.parse.parse_qsl(asked)))
        except (NotThere, KeyError, ValueError):
            self.send_error(HTTPStatus.NOT_FOUND, "there is no such thing")

    def answer(self, name: str, asked: dict[str, str]) -> None:
        """Answers what is asked by a name. Raises NotThere, KeyError and ValueError."""
        page = self.server.page
        if name == "events":
            self.send_events()
        elif name == "network.json":
            self.send_json(page.changes(0))
        elif name == "begin.json":
            self.send_json(page.begin())
        elif name == "history.json":
            self.send_json(page.history(int(asked["row"]), int(asked.get("after", "0"))))
        elif name == "telegram.json" and "row" in asked:
            self.send_json(page.row_telegram(int(asked["row"])))
        elif name == "telegram.json":
            self.send_json(page.session_telegram(asked["session"], int(asked["index"])))
        elif name == "capture.pcapng":
            self.send_capture()
        else:
            file = self.server.files[name or "index.html"]
            self.send_body(TYPES[pathlib.PurePath(name or "index.html").suffix] + "; charset=utf-8", file)

    def send_json(self, told: dict[str, Any]) -> None:
        """Answers by JSON."""
        self.send_body("application/json", compact(told))

    def send_body(self, kind: str, body: bytes) -> None:
        """Answers by these bytes of that type."""
        self.send_response(HTTPStatus.OK)
        self.send_header("Content-Type", kind)
        self.send_header("Content-Length", str(len(body)))
        self.end_headers()
        self.wfile.write(body)

    def send_capture(self) -> None:
        """Answers by what came in the last seconds, as a file for Wireshark."""
        network = self.server.page.network
        with network.lock:
            entries = list(network.kept.entries)
        self.send_response(HTTPStatus.OK)
        self.send_header("Content-Type", "application/octet-stream")
        self.send_header("Content-Disposition", 'attachment; filename="trdp-view.pcapng"')
        self.end_headers()
        write_pcapng(self.wfile, entries)

    def send_events(self) -> None:
        """Tells changes until the browser goes, or this program ends."""
        if not self.server.streams.acquire(blocking=False):
            self.send_error(HTTPStatus.SERVICE_UNAVAILABLE, f"{STREAMS_MOST} pages are open already")
            return
        try:
            self.send_response(HTTPStatus.OK)
            self.send_header("Content-Type", "text/event-stream")
            self.end_headers()
            self.tell_changes()
        finally:
            self.server.streams.release()

    def tell_changes(self) -> None:
        """Tells what is there, and then what changes."""
        page = self.server.page
        version, rest, quiet = 0, None, 0.0
        while True:
            told = page.changes(version)
            version = told["version"]
            now = {name: told[name] for name in page.REST}
            if rest is not None and now["dropped"] != rest["dropped"]:
                told |= page.present()
            if told["rows"] or told["sessions"] or now != rest:
                self.wfile.write(b"data: " + compact(told) + b"\n\n")
                quiet = 0.0
            elif quiet >= QUIET_SECONDS:
                self.wfile.write(b":\n\n")
                quiet = 0.0
            rest = now
            quiet += EVENT_SECONDS
            if page.is_closing.wait(EVENT_SECONDS):
                return

    def end_headers(self) -> None:
        for name, text in HEADERS.items():
            self.send_header(name, text)
        super().end_headers()

    def send_error(self, code: int, message: str | None = None, explain: str | None = None) -> None:
        """Answers by a sentence. What is no GET is refused."""
        if code == HTTPStatus.NOT_IMPLEMENTED:
            code, message = HTTPStatus.METHOD_NOT_ALLOWED, "this server knows only GET"
        body = f"{message or HTTPStatus(code).phrase}\n".encode("ascii", "replace")
        self.send_response(code)
        if code == HTTPStatus.METHOD_NOT_ALLOWED:
            self.send_header("Allow", "GET")
        self.send_header("Content-Type", "text/plain; charset=utf-8")
        self.send_header("Content-Length", str(len(body)))
        self.send_header("Connection", "close")
        self.end_headers()
        if self.command != "HEAD":
            self.wfile.write(body)

    def log_message(self, format: str, *words: Any) -> None:
        """Says nothing of each request."""


def compact(told: dict[str, Any]) -> bytes:
    """JSON in one line, of plain letters."""
    return json.dumps(told, separators=(",", ":")).encode()
