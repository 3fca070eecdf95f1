"""examples/control/client.py at a control socket, which a thread of the test plays, and where it stays."""
from __future__ import annotations

import os
import pathlib
import socket
import subprocess
import sys
import tempfile
import threading
import unittest
from collections.abc import Callable

from test_traps import run
from testing import TOP, Port

sys.path.insert(0, str(TOP / "examples/control"))
import client  # noqa: E402

CLIENT = [sys.executable, "-W", "error", str(TOP / "examples/control/client.py")]
# How many seconds are waited for what has to come. LONG is longer.
PATIENCE = 50
ENDED = "client.py: the connection was ended\n"
# Longer than any client here may go on: it ends by itself before.
LONG = "60"
# Within it a thread here says something, once the client has connected.
SHORT = "2"
NOBODY = 65534


def patient(seconds: int = PATIENCE) -> list[str]:
    """The client, but that it waits so long for what still comes behind the end of its input."""
    text = (f"import sys; sys.path.insert(0, {str(TOP / 'examples/control')!r}); import client; "
            f"client.LAST_SECONDS = {seconds}; sys.exit(client.main(sys.argv[1:]))")
    return [*CLIENT[:-1], "-c", text]


class Node(threading.Thread):
    """A control socket that takes one connection, and does with it what the test says, until that ends."""

    def __init__(self, path: str, serve: Callable[[socket.socket], None]) -> None:
        super().__init__(daemon=True)
        self.serve = serve
        self.fault: BaseException | None = None
        self.listener = socket.socket(socket.AF_UNIX, socket.SOCK_STREAM)
        self.listener.bind(path)
        self.listener.listen()
        self.start()

    def run(self) -> None:
        try:
            taken, _ = self.listener.accept()
            with taken:
                taken.settimeout(PATIENCE)
                self.serve(taken)
        except (OSError, AssertionError) as fault:
            self.fault = fault

    def close(self) -> None:
        """Waits for its end. Raises what went wrong at it."""
        self.join(PATIENCE)
        self.listener.close()
        if self.fault:
            raise self.fault


def answers(taken: socket.socket) -> None:
    """Answers each line by itself, until no line follows."""
    with taken.makefile("rb") as lines:
        for line in lines:
            taken.sendall(b"to " + line)


class Case(unittest.TestCase):
    """A folder for a control socket."""

    def setUp(self) -> None:
        folder = tempfile.TemporaryDirectory()
        self.addCleanup(folder.cleanup)
        self.path = f"{folder.name}/18000"

    def node(self, serve: Callable[[socket.socket], None]) -> Node:
        """A node at the path."""
        node = Node(self.path, serve)
        self.addCleanup(node.close)
        return node

    def says(self, *words: str, typed: bytes = b"", program: list[str] = CLIENT) -> tuple[str, str, int]:
        """What the client prints and says on the error stream, and its status."""
        ran = subprocess.run([*program, *words], input=typed, capture_output=True, timeout=PATIENCE)
        return ran.stdout.decode(), ran.stderr.decode(), ran.returncode

    def stays(self, *words: str, seconds: int = PATIENCE) -> subprocess.Popen[str]:
        """A client that stays, and so long behind the end of its input."""
        process = subprocess.Popen([*patient(seconds), "--stay", *words], stdin=subprocess.PIPE,
                                   stdout=subprocess.PIPE, stderr=subprocess.PIPE, text=True)
        self.addCleanup(process.communicate)
        self.addCleanup(process.kill)
        return process

    def answers_typed(self, process: subprocess.Popen[str], line: str, answer: str) -> None:
        """A line that is typed has this answer."""
        assert process.stdin is not None and process.stdout is not None
        process.stdin.write(line + "\n")
        process.stdin.flush()
        self.assertEqual(process.stdout.readline(), answer + "\n")


class WithinATime(Case):
    """The client prints what comes within its seconds, and ends."""

    def test_each_line_goes_with_its_end(self) -> None:
        came: list[bytes] = []

        def serve(taken: socket.socket) -> None:
            with taken.makefile("rb") as lines:
                came.extend(lines.readline() for _ in range(4))
                taken.sendall(b"0 handle 1\n0 do")
                taken.sendall(b"ne\n")

        node = self.node(serve)
        said = self.says(self.path, LONG, "publish 1", "", "#", "put 1 é\udcff")
        self.assertEqual(said, ("0 handle 1\n0 done\n", ENDED, 0))
        node.close()
        self.assertEqual(came, [b"publish 1\n", b"\n", b"#\n", b"put 1 \xc3\xa9\xff\n"])

    def test_nothing_comes(self) -> None:
        self.node(lambda taken: self.assertEqual(taken.recv(100) + taken.recv(100), b"#\n"))
        self.assertEqual(self.says(self.path, "0.1", "#"), ("", "", 1))

    def test_one_that_is_busy_is_told_though_its_lines_are_unread(self) -> None:
        self.node(lambda taken: taken.sendall(b"busy\n"))
        self.assertEqual(self.says(self.path, LONG, "get 1", "x" * 100_000, "y" * 100_000), ("busy\n", ENDED, 0))

    def test_a_place_at_which_nobody_is(self) -> None:
        with socket.socket(socket.AF_UNIX, socket.SOCK_STREAM) as left:
            left.bind(self.path)
        for path, why in [(self.path, "Connection refused"), (self.path + "1", "No such file or directory")]:
            self.assertEqual(run(client, [path, LONG, "get 1"]), (1, f"client.py: {path}: {why}\n"))

    def test_one_that_may_not_connect(self) -> None:
        with socket.socket(socket.AF_UNIX, socket.SOCK_STREAM) as other:
            other.bind(self.path)
            other.listen()
            os.chmod(self.path, 0)
            os.chmod(pathlib.Path(self.path).parent, 0o755)
            user = os.geteuid()
            os.seteuid(user or NOBODY)
            try:
                said = run(client, [self.path, LONG, "get 1"])
            finally:
                os.seteuid(user)
        self.assertEqual(said, (1, f"client.py: {self.path}: Permission denied\n"))

    def test_one_that_takes_no_line(self) -> None:
        over = threading.Event()

        def serve(taken: socket.socket) -> None:
            taken.sendall(b"0 done\n")
            over.wait(PATIENCE)

        self.node(serve)
        self.assertEqual(self.says(self.path, SHORT, *["x" * 100_000] * 10), ("0 done\n", "", 0))
        over.set()

    def test_one_that_never_ends_to_talk(self) -> None:
        def serve(taken: socket.socket) -> None:
            with self.assertRaises((BrokenPipeError, ConnectionResetError)):
                while True:
                    taken.sendall(b"0 alive 1\n" * 5_000)

        self.node(serve)
        said, errors, status = self.says(self.path, SHORT, "#")
        self.assertEqual((set(said.splitlines(True)), errors, status), ({"0 alive 1\n"}, "", 0))

    def test_a_line_that_is_too_long_or_has_no_end(self) -> None:
        def serve(taken: socket.socket) -> None:
            with self.assertRaises((BrokenPipeError, ConnectionResetError)):
                while True:
                    taken.sendall(b"x" * 100_000)

        self.node(serve)
        fault = f"client.py: {self.path}: a line of more than 140000 bytes came\n"
        self.assertEqual(self.says(self.path, LONG, "#"), ("", fault, 1))

    def test_what_comes_is_shown_as_text(self) -> None:
        longest = "z" * 139_999
        for came, shown in [
            (b"\xff\xc3\xa9 \x1b[2J\0\r\n", "\\xff\\xc3\\xa9 \\x1b[2J\\x00\\x0d\n"), (b"\n\n", "\n\n"),
            (b"0 done\n0 handle 1", "0 done\n"), (longest.encode() + b"\n0 done\n", f"{longest}\n0 done\n"),
        ]:
            with self.subTest(came[:20]):
                node = self.node(lambda taken: taken.sendall(came))
                self.assertEqual(self.says(self.path, LONG, "#"), (shown, ENDED, 0))
                node.close()
                os.remove(self.path)


class Staying(Case):
    """The client goes on, and sends what is typed."""

    def test_it_sends_what_is_typed_when_it_is(self) -> None:
        self.node(answers)
        process = self.stays(self.path, "first")
        assert process.stdin is not None and process.stdout is not None
        self.assertEqual(process.stdout.readline(), "to first\n")
        self.answers_typed(process, "get 1", "to get 1")
        self.answers_typed(process, "", "to ")
        process.stdin.write("no end")
        self.assertEqual(process.communicate(timeout=PATIENCE), ("to no end\n", ""))
        self.assertEqual(process.returncode, 0)

    def test_what_comes_behind_the_end_of_the_input_is_printed(self) -> None:
        def serve(taken: socket.socket) -> None:
            with taken.makefile("rb") as lines:
                taken.sendall(b"%d lines\n" % len(lines.readlines()))

        self.node(serve)
        said = self.says("--stay", self.path, typed=b"get 1\nget 2\n", program=patient())
        self.assertEqual(said, ("2 lines\n", "", 0))

    def test_one_that_takes_lines_late_gets_all_of_them(self) -> None:
        lines = [b"%06d " % it + b"x" * 1_000 + b"\n" for it in range(2_000)]
        came: list[bytes] = []

        def serve(taken: socket.socket) -> None:
            taken.sendall(b"0 done\n" * 20_000)
            with taken.makefile("rb") as typed:
                came.extend(typed)

        node = self.node(serve)
        said = self.says("--stay", self.path, typed=b"".join(lines), program=patient())
        self.assertEqual(said, ("0 done\n" * 20_000, "", 0))
        node.close()
        self.assertTrue(came == lines)

    def test_it_ends_as_the_connection_does(self) -> None:
        self.node(lambda taken: taken.sendall(b"busy\n"))
        process = self.stays(self.path)
        self.assertEqual(process.wait(PATIENCE), 0)
        assert process.stdout is not None and process.stderr is not None
        self.assertEqual((process.stdout.read(), process.stderr.read()), ("busy\n", ENDED))

    def test_it_ends_though_the_other_side_does_not(self) -> None:
        over = threading.Event()
        self.node(lambda _: self.assertTrue(over.wait(PATIENCE)))
        for words in (["--stay", self.path], ["--stay", self.path, "#"]):
            self.assertEqual(self.says(*words), ("", "", 1))
        over.set()

    def test_a_line_that_is_too_long(self) -> None:
        self.node(lambda taken: self.assertEqual(taken.recv(100), b""))
        said = self.says("--stay", self.path, typed=b"x" * 140_000)
        self.assertEqual(said, ("", "client.py: a line has more than 139999 bytes\n", 1))

    def test_it_stays_at_a_port_too(self) -> None:
        port = Port("127.0.8.28", lambda line: [f"to {line}"] if line != "#" else [])
        self.addCleanup(port.close)
        # Nothing but that time ends it.
        process = self.stays("127.0.8.28", str(port.number), "#", seconds=2)
        self.answers_typed(process, "get 1", "to get 1")
        port.say("0 silent 1")
        assert process.stdout is not None
        self.assertEqual(process.stdout.readline(), "0 silent 1\n")
        self.assertEqual(process.communicate("get 2", timeout=PATIENCE), ("to get 2\n", ""))
        self.assertEqual((process.returncode, port.lines), (0, ["#", "get 1", "get 2"]))

    def test_an_input_that_is_closed_has_ended(self) -> None:
        self.node(answers)
        line = ["sh", "-c", 'exec "$@" <&-', "sh", *patient(), "--stay", self.path, "get 1"]
        ran = subprocess.run(line, capture_output=True, timeout=PATIENCE)
        self.assertEqual((ran.stdout, ran.stderr, ran.returncode), (b"to get 1\n", b"", 0))
