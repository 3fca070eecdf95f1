"""trdp-view as a process that serves its page, for the tests."""
from __future__ import annotations

import http.client
import json
import subprocess
import sys
from typing import Any
from urllib.parse import urlsplit

from testing import PYTHON


class View:
    """trdp-view with these words. `address` is that of its page."""

    def __init__(self, *words: str) -> None:
        line = [sys.executable, "-W", "error", "-m", "trdp_view", *words]
        self.process = subprocess.Popen(line, cwd=PYTHON, stdin=subprocess.PIPE, stdout=subprocess.PIPE,
                                        stderr=subprocess.PIPE)
        assert self.process.stdout is not None
        self.address = self.process.stdout.readline().decode().strip()
        if not self.address:
            raise AssertionError(self.process.communicate()[1].decode())

    def ask(self, name: str, method: str = "GET", **headers: str) -> http.client.HTTPResponse:
        """The answer to a request below the page's address, whose head is read."""
        parts = urlsplit(self.address)
        assert parts.hostname is not None
        connection = http.client.HTTPConnection(parts.hostname, parts.port, timeout=20)
        connection.putrequest(method, parts.path + name, skip_host="Host" in headers)
        for key, text in headers.items():
            connection.putheader(key, text)
        connection.endheaders()
        return connection.getresponse()

    def read(self, name: str) -> bytes:
        """What is at a name below the page's address."""
        with self.ask(name) as answer:
            if answer.status != 200:
                raise AssertionError(f"{name}: {answer.status}")
            return answer.read()

    def json(self, name: str = "network.json") -> Any:
        """The JSON that is there."""
        return json.loads(self.read(name))

    def close(self, errors: str = "") -> None:
        """Ends it as Ctrl-C does. It says nothing but this on its error stream."""
        self.process.send_signal(2)
        _, said = self.process.communicate(timeout=20)
        if (self.process.returncode, said.decode()) != (0, errors):
            raise AssertionError(f"it ended with status {self.process.returncode}: {said.decode()}")
