"""What the tests of the clients use: daemons, and a network before one that loses and doubles."""
from __future__ import annotations

import contextlib
import ctypes
import functools
import os
import pathlib
import random
import re
import select
import signal
import socket
import subprocess
import tempfile
import threading
import time
import traceback
from collections.abc import Callable, Sequence

PYTHON = pathlib.Path(__file__).resolve().parent.parent
TOP = PYTHON.parent.parent
PROGRAM = os.environ.get("TRDPD") or str(TOP / "crates/trdpd/out/trdpd")
# Addresses and ports of their own, so that the tests collide with no one.
PD, MD, OPERATOR, CONTROL = 18224, 18225, 18790, 18800
SECOND = 1_000_000
# What tests by chance draw by, which they print: TRDP_SEED=N in the environment draws the same again.
SEED = int(os.environ.get("TRDP_SEED") or random.randrange(1 << 32))


def wait_until(is_so: Callable[[], bool], seconds: float = 20) -> None:
    """Waits until something is so. It is looked at once more after that time: this process may have stood still."""
    end = time.monotonic() + seconds
    is_last = False
    while not is_so():
        if is_last:
            raise AssertionError(f"not so within {seconds} s")
        time.sleep(0.002)
        is_last = time.monotonic() > end


# Of a daemon's stream: it goes to a file.
FILE = -1


def open_ends() -> set[str]:
    """The sockets of this machine at which something can come in, as the system names them: UDP ports, and the paths
    at which somebody listens."""
    with open("/proc/net/udp") as ports, open("/proc/net/unix") as paths:
        udp, unix = ([line.split() for line in list(table)[1:]] for table in (ports, paths))
    listening = [it[6] for it in unix if int(it[3], 16) & 0x10000]
    return {f"socket:[{inode}]" for inode in [*(it[9] for it in udp), *listening]}


def has_ends(pid: int, config: str) -> bool:
    """Whether a daemon of a configuration has all that it names: each port is bound, or listens at its path."""
    held = set()
    # Those of a process that has just ended are gone, or root's.
    with contextlib.suppress(PermissionError):
        for number in os.listdir(f"/proc/{pid}/fd"):
            with contextlib.suppress(FileNotFoundError):
                held.add(os.readlink(f"/proc/{pid}/fd/{number}"))
    # A spare port is one at most; a group has two ports.
    groups = re.search(r"^groups = \[(.*)\]", config, re.MULTILINE)
    lines = sum(config.count(it) for it in ("\noperator_port", "\nspare_control_ports", "\ncontrol_port"))
    named = 2 + (groups[1].count('"') if groups else 0) + lines
    return len(held & open_ends()) >= named


def join(home: str, group: str, port: int = 0) -> socket.socket:
    """A socket at a port of a group, which others may have too, joined at the interface of an address."""
    joined = socket.socket(socket.AF_INET, socket.SOCK_DGRAM)
    try:
        joined.settimeout(10)
        joined.setsockopt(socket.SOL_SOCKET, socket.SO_REUSEADDR, 1)
        joined.bind((group, port))
        joined.setsockopt(socket.IPPROTO_IP, socket.IP_ADD_MEMBERSHIP, socket.inet_aton(group) + socket.inet_aton(home))
    except BaseException:
        joined.close()
        raise
    return joined


def sender(home: str) -> socket.socket:
    """A socket that sends from an address, and to groups by the interface of that."""
    out = socket.socket(socket.AF_INET, socket.SOCK_DGRAM)
    try:
        out.bind((home, 0))
        out.setsockopt(socket.IPPROTO_IP, socket.IP_MULTICAST_IF, socket.inet_aton(home))
    except BaseException:
        out.close()
        raise
    return out


@functools.cache
def has_groups() -> bool:
    """Whether what is sent to a group on this machine comes back, as one datagram says."""
    try:
        with join("127.0.0.1", "239.192.8.99") as joined, sender("127.0.0.1") as out:
            joined.settimeout(5)
            out.sendto(b"probe", joined.getsockname())
            return joined.recv(100) == b"probe"
    except OSError:
        return False


# Of how many clients a network keeps a socket, the latest ones: each try of a client may be of a new one.
BACKS = 200
NO_GROUPS = "no datagram to a group comes back on this machine"


class Daemon:
    """A daemon of a configuration, as a process.

    `output` and `errors` are the descriptors of its streams: by default a file of both, and None where it has none.
    `umask` is that of its process, and -1 that of this one.
    """

    def __init__(self, config: str, folder: str | None = None, words: Sequence[str] = (), output: int | None = FILE,
                 errors: int | None = FILE, umask: int = -1) -> None:
        self.words = words
        self.umask = umask
        self.streams = output, errors
        self.folder = tempfile.TemporaryDirectory() if folder is None else None
        self.path = pathlib.Path(self.folder.name if self.folder else str(folder)) / "node.toml"
        self.path.write_text(config)
        self.running: subprocess.Popen[bytes] | None = None
        try:
            self.start()
        except BaseException:
            self.close()
            raise

    @property
    def process(self) -> subprocess.Popen[bytes]:
        """The process of a daemon that runs."""
        assert self.running is not None
        return self.running

    @process.setter
    def process(self, started: subprocess.Popen[bytes]) -> None:
        self.running = started

    def start(self) -> None:
        """Starts it, and waits until it has its ports."""
        # What it says goes to a file: a pipe that no one reads would fill.
        errors = self.path.with_suffix(".errors")
        closed = " ".join(f"{number}>&-" for number, it in enumerate(self.streams, 1) if it is None)
        with open(errors, "wb") as out:
            output, error = (out.fileno() if it in (FILE, None) else it for it in self.streams)
            line = ["sh", "-c", f'exec "$0" "$@" {closed}', PROGRAM, "daemon", str(self.path), *self.words]
            self.process = subprocess.Popen(line[3 * (not closed):], stdout=output, stderr=error, umask=self.umask)
        config = self.path.read_text()
        wait_until(lambda: self.process.poll() is not None or has_ends(self.process.pid, config), seconds=60)
        if self.process.poll() is not None:
            raise RuntimeError(f"the daemon ended: {errors.read_text()}")

    def totals(self) -> dict[str, int]:
        """Its latest line of totals, which the words `--totals SECONDS` ask for; nothing where there is none yet."""
        whole = self.path.with_suffix(".errors").read_text().rpartition("\n")[0]
        words = [it.split() for it in whole.splitlines() if it.startswith("taken ")]
        return dict(zip(words[-1][::2], map(int, words[-1][1::2]))) if words else {}

    def end(self) -> None:
        """Ends it at once."""
        if self.running is not None:
            self.running.send_signal(signal.SIGKILL)
            self.running.wait()
            self.running = None

    def close(self) -> None:
        """Ends it for good."""
        self.end()
        if self.folder:
            self.folder.cleanup()


class Connection:
    """A connection at a path, which says lines and hears texts."""

    def __init__(self, path: str, seconds: float = 20) -> None:
        """Connects as soon as somebody listens there."""
        self.socket = socket.socket(socket.AF_UNIX, socket.SOCK_STREAM)
        self.heard = b""
        try:
            wait_until(lambda: self._connects(path), seconds)
        except BaseException:
            self.close()
            raise

    def _connects(self, path: str) -> bool:
        try:
            self.socket.connect(path)
        except (FileNotFoundError, ConnectionRefusedError):
            return False
        return True

    def say(self, *lines: bytes) -> None:
        """Says lines, all at once."""
        self.socket.sendall(b"".join(it + b"\n" for it in lines))

    def hear(self, seconds: float = 20) -> bytes:
        """The next line, with its end; at the end of the connection what is left, as nothing."""
        end = time.monotonic() + seconds
        while b"\n" not in self.heard:
            self.socket.settimeout(max(end - time.monotonic(), 0.001))
            try:
                more = self.socket.recv(1 << 18)
            except ConnectionResetError:
                # So the system ends one that said what no one read.
                more = b""
            if not more:
                left, self.heard = self.heard, b""
                return left
            self.heard += more
        line, _, self.heard = self.heard.partition(b"\n")
        return line + b"\n"

    def hear_all(self, seconds: float = 20) -> list[bytes]:
        """All lines up to the end of the connection."""
        lines = []
        while line := self.hear(seconds):
            lines.append(line)
        return lines

    def close(self) -> None:
        """Ends it."""
        self.socket.close()


def fork(act: Callable[[], object], keeps: Sequence[int] = ()) -> int:
    """Starts a process that does something, and ends with status 0, or with 1 where that raises. It goes where this one
    goes; of the files that are open here it has those, and the three streams. Answers its number."""
    number = os.fork()
    if number:
        return number
    try:
        ctypes.CDLL(None).prctl(1, signal.SIGKILL)  # PR_SET_PDEATHSIG
        for first, behind in zip([2, *sorted(keeps)], [*sorted(keeps), 1 << 20]):
            os.closerange(first + 1, behind)
        act()
        os._exit(0)
    except BaseException:
        traceback.print_exc()
    finally:
        os._exit(1)


class Holder:
    """A process that takes a socket over, does with it what it is given, and then holds it until it is killed."""

    def __init__(self, held: socket.socket, act: Callable[[socket.socket], object] = id) -> None:
        def hold() -> None:
            held.settimeout(None)
            act(held)
            while True:
                signal.pause()

        self.number = fork(hold, [held.fileno()])
        held.close()

    def stop(self) -> None:
        """Stops it, so that it neither reads nor writes, and doesn't end."""
        os.kill(self.number, signal.SIGSTOP)
        os.waitid(os.P_PID, self.number, os.WSTOPPED)

    def kill(self) -> None:
        """Kills it: from then on its socket is closed."""
        if self.number:
            os.kill(self.number, signal.SIGKILL)
            os.waitpid(self.number, 0)
            self.number = 0


def play(config: str, script: str) -> list[str]:
    """What `trdpd run` gives for a script."""
    with tempfile.TemporaryDirectory() as folder:
        path = pathlib.Path(folder) / "node.toml"
        path.write_text(config)
        ran = subprocess.run([PROGRAM, "run", str(path)], input=script.encode(), capture_output=True, timeout=60)
    if ran.returncode:
        raise AssertionError(ran.stderr.decode())
    return ran.stdout.decode().splitlines()


# A text, or a text and where it goes to.
Said = str | tuple[tuple[str, int] | None, str]


class Port(threading.Thread):
    """A UDP port that answers each datagram by what a function says of its line, as a control port would: texts in
    their order, or pairs of a place and a text."""

    def __init__(self, address: str, answer: Callable[[str], Sequence[Said]]) -> None:
        super().__init__(daemon=True)
        self.answer = answer
        self.lines: list[str] = []
        self.client: tuple[str, int] | None = None
        self.socket = socket.socket(socket.AF_INET, socket.SOCK_DGRAM)
        self.socket.bind((address, 0))
        self.number = self.socket.getsockname()[1]
        self.start()

    def run(self) -> None:
        while True:
            data, self.client = self.socket.recvfrom(65536)
            if data == b"end":
                return
            line = data.decode()
            self.lines.append(line)
            for text in self.answer(line):
                self.say(text)

    def say(self, said: Said) -> None:
        """Sends a text to where the latest line came from, or to its place."""
        place, text = said if isinstance(said, tuple) else (self.client, said)
        assert place is not None
        self.socket.sendto(text.encode() + b"\n", place)

    def close(self) -> None:
        """Ends it."""
        with socket.socket(socket.AF_INET, socket.SOCK_DGRAM) as out:
            out.sendto(b"end", self.socket.getsockname())
        self.join()
        self.socket.close()


class Relay(threading.Thread):
    """A network between clients and a port that keeps the order, and of the answers, or of the lines too, loses one
    in `lost` and brings one in `doubled` twice."""

    def __init__(self, address: str, to: tuple[str, int], seed: int, lost: int, doubled: int, both_ways: bool) -> None:
        super().__init__(daemon=True)
        self.to = to
        self.chance = random.Random(seed)
        self.lost, self.doubled, self.both_ways = lost, doubled, both_ways
        self.counts = {"lost": 0, "doubled": 0}
        self.front = socket.socket(socket.AF_INET, socket.SOCK_DGRAM)
        self.front.bind((address, 0))
        self.number = self.front.getsockname()[1]
        self.backs: dict[tuple[str, int], socket.socket] = {}  # a socket for each client
        self.is_over = False
        self.start()

    def run(self) -> None:
        while not self.is_over:
            ready, _, _ = select.select([self.front, *self.backs.values()], [], [], 0.05)
            if self.front in ready:
                data, client = self.front.recvfrom(65536)
                back = self.back(client)
                for _ in range(self.times(data) if self.both_ways else 1):
                    back.send(data)
            for client, back in list(self.backs.items()):
                if back in ready:
                    data = back.recv(65536)
                    for _ in range(self.times(data)):
                        self.front.sendto(data, client)

    def back(self, client: tuple[str, int]) -> socket.socket:
        """The socket that plays a client."""
        back = self.backs.pop(client, None)
        if back is None:
            back = socket.socket(socket.AF_INET, socket.SOCK_DGRAM)
            back.connect(self.to)
        self.backs[client] = back
        if len(self.backs) > BACKS:
            self.backs.pop(next(iter(self.backs))).close()
        return back

    def times(self, data: bytes) -> int:
        """How often a datagram is brought."""
        if self.chance.randrange(self.lost) == 0:
            self.counts["lost"] += 1
            return 0
        if self.chance.randrange(self.doubled) == 0:
            self.counts["doubled"] += 1
            return 2
        return 1

    def close(self) -> None:
        """Ends it."""
        self.is_over = True
        self.join()
        for port in (self.front, *self.backs.values()):
            port.close()
