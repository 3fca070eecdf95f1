"""A relay before a control port, that drops, doubles or holds back answers.

A client calls at the relay's port in place of the daemon's, and the daemon hears the relay. What
isn't an answer passes.
"""
from __future__ import annotations

import socket
import threading
import time

Place = tuple[str, int]

ANSWERS = {b"handle", b"done", b"value", b"refused"}


class Relay(threading.Thread):
    """From one place to another, until the program ends."""

    def __init__(self, here: Place, daemon: Place) -> None:
        super().__init__(daemon=True)
        self.lock = threading.Lock()
        self.client: Place | None = None
        self.left = {"drop": 0, "double": 0, "hold": 0}  # how many of the next answers
        self.held: list[bytes] = []
        self.down = socket.socket(socket.AF_INET, socket.SOCK_DGRAM)
        self.down.bind(here)
        self.up = socket.socket(socket.AF_INET, socket.SOCK_DGRAM)
        self.up.connect(daemon)
        threading.Thread(target=self.come_back, daemon=True).start()

    def run(self) -> None:
        """Passes lines on to the daemon."""
        while True:
            line, self.client = self.down.recvfrom(65536)
            try:
                self.up.send(line)
            except OSError:
                pass  # no one is there now

    def come_back(self) -> None:
        """Passes texts back to the client, or does with them what it was told to."""
        while True:
            try:
                text = self.up.recv(65536)
            except OSError:
                continue
            with self.lock:
                self.give(text)

    def give(self, text: bytes) -> None:
        """Gives one text to the client."""
        ways = [way for way, count in self.left.items() if count] if self.is_answer(text) else []
        if ways:
            self.left[ways[0]] -= 1
        if ways[:1] == ["hold"]:
            self.held.append(text)
        elif ways[:1] != ["drop"]:
            for _ in range(2 if ways else 1):
                self.pass_on(text)

    def pass_on(self, text: bytes) -> None:
        """Sends one text to the client: a daemon answers no one who didn't call."""
        assert self.client is not None
        self.down.sendto(text, self.client)

    @staticmethod
    def is_answer(text: bytes) -> bool:
        words = text.split()
        return len(words) > 1 and words[1] in ANSWERS

    def set(self, way: str, count: int) -> None:
        """Drops, doubles or holds back that many of the next answers."""
        with self.lock:
            self.left[way] = count

    def release(self) -> None:
        """Gives what was held back, as soon as all is that is to be."""
        end = time.monotonic() + 20
        while self.left["hold"]:
            if time.monotonic() > end:
                raise OSError("nothing comes that could be held back")
            time.sleep(0.002)
        with self.lock:
            for text in self.held:
                self.pass_on(text)
            self.held.clear()
