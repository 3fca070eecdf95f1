"""Chromium without a window, by its DevTools protocol over two pipes."""
from __future__ import annotations

import base64
import contextlib
import fcntl
import itertools
import json
import os
import pathlib
import shutil
import subprocess
import tempfile
from typing import Any

from testing import wait_until

PROGRAM = shutil.which("chromium") or shutil.which("chromium-browser") or shutil.which("google-chrome")
MISSING = "chromium isn't there"
SIZE = 1366, 768
"""Width and height of the page: that of a small laptop."""
# The browser reads its commands from descriptor 3, and writes what it tells to 4. These come by higher numbers, which
# not every shell takes.
START = 'exec "$@" 3<&$TAKES 4>&$TELLS'
WORDS = ["--headless=new", "--remote-debugging-pipe", "--no-first-run", "--disable-gpu", "--disable-dev-shm-usage",
         "--hide-scrollbars", "--no-sandbox", "about:blank"]


def moved(descriptor: int) -> int:
    """The same pipe by a number that is no one's in a new process."""
    try:
        return fcntl.fcntl(descriptor, fcntl.F_DUPFD_CLOEXEC, 10)
    finally:
        os.close(descriptor)


class Browser:
    """A browser with one page."""

    def __init__(self, width: int = SIZE[0], height: int = SIZE[1]) -> None:
        assert PROGRAM is not None
        self.said: list[str] = []  # what the page complained of
        self._numbers = itertools.count(1)
        self._left = b""
        self._folder = tempfile.TemporaryDirectory()
        takes, self._to = map(moved, os.pipe())
        self._from, tells = map(moved, os.pipe())
        line = ["bash", "-c", START, "bash", PROGRAM, f"--user-data-dir={self._folder.name}", *WORDS]
        known = os.environ | {"TAKES": str(takes), "TELLS": str(tells), "HOME": self._folder.name}
        self._process = subprocess.Popen(line, env=known, pass_fds=(takes, tells), stdin=subprocess.DEVNULL,
                                         stdout=subprocess.DEVNULL, stderr=subprocess.DEVNULL)
        os.close(takes)
        os.close(tells)
        self.downloads = pathlib.Path(self._folder.name) / "downloads"
        self._session: str | None = None
        try:
            self._begin(width, height)
        except BaseException:
            self.close()
            raise

    def _begin(self, width: int, height: int) -> None:
        """Has a page of that size."""
        self.call("Browser.setDownloadBehavior", behavior="allow", downloadPath=str(self.downloads))
        target = self.call("Target.createTarget", url="about:blank")["targetId"]
        self._session = self.call("Target.attachToTarget", targetId=target, flatten=True)["sessionId"]
        for domain in ("Page", "Runtime", "Log"):
            self.call(f"{domain}.enable")
        self.call("Emulation.setDeviceMetricsOverride", width=width, height=height, deviceScaleFactor=1, mobile=False)

    def call(self, method: str, **words: Any) -> Any:
        """Calls a method of the protocol. Answers its result."""
        number = next(self._numbers)
        asked: dict[str, Any] = {"id": number, "method": method, "params": words}
        if self._session is not None:
            asked["sessionId"] = self._session
        os.write(self._to, json.dumps(asked).encode() + b"\0")
        while (told := self._next()).get("id") != number:
            self._note(told)
        if "error" in told:
            raise AssertionError(f"{method}: {told['error']}")
        return told["result"]

    def _next(self) -> Any:
        """What the browser tells next."""
        while b"\0" not in self._left:
            more = os.read(self._from, 1 << 16)
            if not more:
                raise AssertionError("the browser has ended")
            self._left += more
        told, _, self._left = self._left.partition(b"\0")
        return json.loads(told)

    def _note(self, told: Any) -> None:
        """Notes what a page complains of."""
        if told.get("method") == "Log.entryAdded" and told["params"]["entry"]["level"] == "error":
            self.said.append(told["params"]["entry"]["text"])
        if told.get("method") == "Runtime.exceptionThrown":
            self.said.append(json.dumps(told["params"]["exceptionDetails"]))

    def visit(self, address: str) -> None:
        """Goes to a page."""
        self.call("Page.navigate", url=address)
        self.wait("document.readyState === 'complete'")

    def value(self, script: str) -> Any:
        """The value of an expression in the page."""
        told = self.call("Runtime.evaluate", expression=script, returnByValue=True, awaitPromise=True)
        if "exceptionDetails" in told:
            raise AssertionError(f"{script}: {told['exceptionDetails']}")
        return told["result"].get("value")

    def wait(self, script: str) -> None:
        """Waits until an expression is true in the page."""
        wait_until(lambda: bool(self.value(script)), 30)

    def drag(self, selector: str, begin: float, end: float) -> None:
        """Drags the mouse over an element, from one part of its width to another."""
        found = f"document.querySelector({json.dumps(selector)})"
        self.value(f"{found}.scrollIntoView({{block: 'center'}})")
        box = self.value(f"{found}.getBoundingClientRect().toJSON()")
        y = box["top"] + box["height"] / 2
        places = [box["left"] + box["width"] * (begin + (end - begin) * it / 10) for it in range(11)]
        moves = [("mousePressed", places[0]), *[("mouseMoved", it) for it in places], ("mouseReleased", places[-1])]
        for kind, x in moves:
            self.call("Input.dispatchMouseEvent", type=kind, x=x, y=y, button="left", buttons=1, clickCount=1)

    def saved(self, selector: str, pattern: str) -> bytes:
        """Clicks an element, and waits for the file that this saves. Answers its bytes."""
        self.value(f"document.querySelector({json.dumps(selector)}).click()")
        wait_until(lambda: any(it.stat().st_size for it in self.downloads.glob(pattern)))
        return next(self.downloads.glob(pattern)).read_bytes()

    def screenshot(self, path: pathlib.Path, height: float | None = None) -> None:
        """Saves what the page shows, or all of it down to a height."""
        width = self.value("innerWidth")
        clip = {"x": 0, "y": 0, "width": width, "height": height, "scale": 1}
        more = {} if height is None else {"clip": clip, "captureBeyondViewport": True}
        path.write_bytes(base64.b64decode(self.call("Page.captureScreenshot", format="png", **more)["data"]))

    def close(self) -> None:
        """Ends it."""
        self._process.kill()
        self._process.wait()
        os.close(self._to)
        os.close(self._from)
        with contextlib.suppress(OSError):
            self._folder.cleanup()
