"""The client at a control socket that is made up: what it makes of each thing that may come, or not come."""
from __future__ import annotations

import contextlib
import socket
import tempfile
import threading
import time
import unittest
from collections.abc import Callable, Iterator

from made_node import ANSWERS
from test_paths import ANSWER_US
from testing import SECOND
from trdp_slot import Busy, Lost, NoAnswer, Restarted, Silent, Slot, WrongAnswer


class Made(unittest.TestCase):
    """A control socket that is made up, by a thread of the test."""

    def setUp(self) -> None:
        folder = tempfile.TemporaryDirectory()
        self.addCleanup(folder.cleanup)
        self.folder = folder.name
        self.listener = socket.socket(socket.AF_UNIX, socket.SOCK_STREAM)
        self.addCleanup(self.listener.close)
        self.listener.bind(f"{self.folder}/18000")
        self.listener.listen()

    def serve(self, *acts: Callable[[socket.socket], object]) -> Slot:
        """A client, whose connections are served so, one after another."""
        def run() -> None:
            # Until the test is over.
            with contextlib.suppress(OSError):
                for act in acts:
                    with self.listener.accept()[0] as taken:
                        act(taken)

        thread = threading.Thread(target=run, daemon=True)
        thread.start()
        slot = Slot(self.folder, 18000, answer_us=ANSWER_US, reset=False)
        self.addCleanup(thread.join, 20)
        self.addCleanup(self.listener.shutdown, socket.SHUT_RDWR)
        self.addCleanup(slot.close)
        return slot

    @staticmethod
    def answering(*texts: str) -> Callable[[socket.socket], None]:
        """Answers the question and marks, and each other line by the next of these texts, until there is none."""
        def answer(taken: socket.socket) -> None:
            left = list(texts)
            with taken.makefile("r") as lines:
                for line in lines:
                    text = ANSWERS.get(line.rstrip("\n")) or (left.pop(0) if left else None)
                    if text is None:
                        return
                    if text:
                        taken.sendall(f"{text}\n".encode())
        return answer

    def asks(self, taken: socket.socket, lines: Iterator[str]) -> None:
        """The client asks which slot it is, and is answered."""
        self.assertEqual([next(lines), next(lines)], ["get 0\n", "get\n"])
        taken.sendall(b"0 refused NoHandle\nline fault Count\n")

    def test_busy_is_read_though_nothing_can_be_sent(self) -> None:
        def busy(taken: socket.socket) -> None:
            taken.sendall(b"busy\n")

        slot = self.serve(busy, busy)
        for _ in range(2):
            with self.assertRaises(Busy):
                slot.begin()
                time.sleep(0.1)
                slot.get(1)
        self.assertIsNone(slot.next_indication(0))

    def test_busy_later_is_an_answer_of_no_trdpd(self) -> None:
        slot = self.serve(self.answering("0 done", "busy", "busy", "busy"))
        slot.put(1, b"")
        self.assertRaises(WrongAnswer, slot.put, 1, b"")

    def test_an_answer_that_was_dropped_is_asked_for_again(self) -> None:
        slot = self.serve(self.answering("lost 3", "0 value Valid 7 0b", "lost 1", "0 done"))
        self.assertEqual(slot.get(1).value, b"\x0b")
        self.assertEqual(slot.next_indication(0), Lost(3))
        self.assertRaises(NoAnswer, slot.pull, 1)
        slot.put(1, b"")

    def test_a_mark_that_was_dropped_is_followed_by_another_one(self) -> None:
        def act(taken: socket.socket) -> None:
            with taken.makefile("r") as lines:
                self.asks(taken, lines)
                self.assertEqual([next(lines) for _ in range(2)], ["get 1\n", "get mark\n"])
                taken.sendall(b"0 value Valid 7 0b\nlost 1\n")
                self.assertEqual([next(lines) for _ in range(1)], ["mark\n"])
                taken.sendall(b"line fault Unknown\n")
                self.assertEqual([next(lines) for _ in range(2)], ["get 2\n", "get\n"])
                taken.sendall(b"0 value Valid 8 0c\nline fault Count\n")

        slot = self.serve(act)
        self.assertEqual([slot.get(it).counter for it in (1, 2)], [7, 8])

    def test_marks_of_a_new_client_are_told_apart(self) -> None:
        def act(taken: socket.socket) -> None:
            with taken.makefile("r") as lines:
                self.assertEqual([next(lines), next(lines)], ["get 0\n", "get\n"])
                for dropped, line in ((b"lost 2\n", "get mark\n"), (b"lost 1\n", "mark\n")):
                    taken.sendall(dropped)
                    self.assertEqual(next(lines), line)
                taken.sendall(b"line fault Unknown\n")
                self.asks(taken, lines)
                self.assertEqual([next(lines), next(lines)], ["get 1\n", "get mark\n"])
                taken.sendall(b"0 value Valid 7 0b\nline fault BadWord\n")

        self.assertEqual(self.serve(act).get(1).counter, 7)

    def test_late_answers_are_never_those_of_another_call(self) -> None:
        held: list[bytes] = []
        freed = threading.Event()
        freed.set()

        def act(taken: socket.socket) -> None:
            with taken.makefile("r") as lines:
                for line in lines:
                    if line != "#\n":
                        answer = ANSWERS.get(line.rstrip("\n")) or f"0 value Valid {line.split()[1]} 00"
                        held.append(f"{answer}\n".encode())
                    if freed.is_set():
                        taken.sendall(b"".join(held))
                        held.clear()

        slot = self.serve(act)
        self.assertEqual(slot.get(1).counter, 1)
        slot.sync()
        freed.clear()
        slot.answer_us = 10_000
        for _ in range(2):
            self.assertRaises(NoAnswer, slot.get, 1)
        # It waits for as long as the one before, and whoever comes then for as long as this one.
        slot.answer_us = ANSWER_US
        self.assertRaises(NoAnswer, slot.get, 1)
        freed.set()
        slot.begin()
        self.assertEqual([slot.get(it).counter for it in (2, 3, 4)], [2, 3, 4])

    def test_lines_that_find_no_room_wait(self) -> None:
        lines = [f"# {it} ".ljust(139_999, "x") for it in range(4)]
        came: list[str] = []

        def act(taken: socket.socket) -> None:
            with taken.makefile("r") as said:
                for _ in range(2):
                    time.sleep(0.1)
                    came.extend(next(said).rstrip("\n") for _ in lines)
                    taken.sendall(b"0 silent 1\n")
                self.asks(taken, said)
                self.assertEqual([next(said), next(said)], ["get 1\n", "get mark\n"])
                taken.sendall(b"0 value Valid 7 0b\nline fault BadWord\n")

        slot = self.serve(act)
        for line in lines:
            slot.send_line(line)
        self.assertIsInstance(slot.next_indication(5 * SECOND), Silent)
        for line in lines:
            slot.send_line(line)
        self.assertEqual(slot.get(1).value, b"\x0b")
        self.assertTrue(came == lines * 2)

    def test_a_line_of_too_many_bytes_is_of_no_trdpd(self) -> None:
        slot = self.serve(lambda taken: taken.sendall(b"x" * 200_000))
        self.assertRaises(WrongAnswer, slot.get, 1)

    def test_check_asks_nothing_though_it_finds_the_end(self) -> None:
        said: list[str] = []

        def act(taken: socket.socket) -> None:
            with taken.makefile("r") as lines:
                for line in lines:
                    said.append(line)
                    taken.sendall(f"{ANSWERS[line.rstrip()]}\n".encode())

        slot = self.serve(lambda taken: taken.recv(1000), act)
        self.assertEqual([slot.check(), slot.check()], [False, True])
        self.assertEqual(said, ["get mark\n"])

    def test_a_call_is_made_once_where_the_connection_ends_behind_it(self) -> None:
        said: list[str] = []

        def act(taken: socket.socket) -> None:
            with taken.makefile("r") as lines:
                self.asks(taken, lines)
                said.append(next(lines))

        slot = self.serve(act, lambda taken: said.append(taken.recv(1000).decode()))
        with self.assertRaisesRegex(NoAnswer, "has ended: notify 1 "):
            slot.notify(1, "10.0.0.2:17225")
        self.assertEqual(len(said), 1)
        self.assertIsInstance(slot.next_indication(0), Restarted)
