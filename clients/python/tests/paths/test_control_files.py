"""The files of control ports in a folder: who may connect, what is in the way, and what is said of them."""
from __future__ import annotations

import os
import pathlib
import signal
import socket
import stat
import subprocess
import tempfile
import unittest
from collections.abc import Callable

from test_controls import NO_HANDLE, AtPaths
from test_edge import is_free
from test_ports import HOME, KEPT, control, node
from testing import CONTROL, MD, OPERATOR, PD, PROGRAM, Connection, Daemon, fork

# The most bytes of a path.
PATH = 107
NOBODY = 65534
STARTS = 50
MODE = 0o660
IN_USE = "Address already in use (os error 98)"
NOTHING = "taken 0 offered 0 lost 0 unread 0 memory 0\n"
needs_root = unittest.skipUnless(os.geteuid() == 0, "another user at a control socket: only root can be one")


def run(config: str, *words: str) -> tuple[int, str, str]:
    """The status, the output, and what is on the error stream."""
    with tempfile.NamedTemporaryFile("w", suffix=".toml") as file:
        file.write(config)
        file.flush()
        ran = subprocess.run([PROGRAM, words[0], file.name, *words[1:]], capture_output=True, text=True, timeout=20)
        return ran.returncode, ran.stdout, ran.stderr


def become(user: int, group: int) -> None:
    """Has the process be that user's from now on, of that group alone."""
    os.setgroups([])
    os.setgid(group)
    os.setuid(user)


def leave_socket(path: pathlib.Path) -> None:
    """Leaves the file of a socket at which no one listens."""
    with socket.socket(socket.AF_UNIX, socket.SOCK_STREAM) as dead:
        dead.bind(str(path))


class Files(AtPaths):
    """What is at the paths."""

    def path(self, port: int = CONTROL) -> pathlib.Path:
        """The path of that port."""
        return pathlib.Path(self.folder) / str(port)

    def refused(self, *lines: str, folder: str = "") -> None:
        """A second daemon in the folder ends, and says so of these paths; it has the same ports at another address."""
        config = node(control(0)).replace(HOME, KEPT)
        status, output, errors = run(config, "daemon", "--controls", folder or self.folder)
        self.assertEqual((status, output), (4, ""))
        said = "".join(f"port {it}\n" for it in lines)
        self.assertEqual(errors.partition("bind fault\n")[1:], ("bind fault\n", said))

    def test_each_control_port_has_a_file_and_no_udp_port(self) -> None:
        spares = f"spare_control_ports = [0, {CONTROL + 2}, {CONTROL + 3}]\n"
        self.starts(control(0), "", control(1), more=spares)
        controls = [OPERATOR, *(CONTROL + it for it in range(4))]
        self.connects(CONTROL + 3)
        self.assertEqual(sorted(map(int, os.listdir(self.folder))), controls)
        self.assertEqual([it for it in [PD, MD, *controls] if not is_free((HOME, it))], [PD, MD])

    def test_the_mode_is_the_same_under_any_umask(self) -> None:
        for umask in (0, 0o077, 0o777):
            daemon = Daemon(node(control(0)), words=("--controls", self.folder), umask=umask)
            self.addCleanup(daemon.close)
            for port in (OPERATOR, CONTROL):
                mode = self.path(port).lstat().st_mode
                self.assertEqual((stat.S_ISSOCK(mode), stat.S_IMODE(mode)), (True, MODE), oct(umask))
            daemon.end()

    def test_what_a_dead_socket_left_is_replaced(self) -> None:
        leave_socket(self.path())
        self.path().chmod(0o600)
        daemon = self.starts(control(0))
        for _ in range(3):
            self.says(self.connects(), b"get 1", NO_HANDLE)
            daemon.end()
            self.assertTrue(self.path().is_socket())
            daemon.start()
        self.assertEqual(stat.S_IMODE(self.path().lstat().st_mode), MODE)

    def test_a_path_where_a_daemon_lives_is_refused(self) -> None:
        self.starts(control(0))
        application = self.connects()
        self.says(application, b"get 1", NO_HANDLE)
        before = [self.path(it).lstat().st_ino for it in (OPERATOR, CONTROL)]
        self.refused(f"{self.path(OPERATOR)}: {IN_USE}", f"{self.path()}: {IN_USE}")
        self.assertEqual([self.path(it).lstat().st_ino for it in (OPERATOR, CONTROL)], before)
        self.says(application, b"get 2", NO_HANDLE)
        self.says(self.connects(OPERATOR), b"role 9 leader", b"ok\n")
        application.close()
        self.says(self.connects(), b"get 3", NO_HANDLE)

    def test_what_is_no_socket_is_left_and_refused(self) -> None:
        other = pathlib.Path(self.folder) / "other"
        leave_socket(other)
        makes: list[Callable[[pathlib.Path], object]] = [
            lambda path: path.write_text("kept"), lambda path: path.mkdir(), lambda path: path.symlink_to("nowhere"),
            lambda path: path.symlink_to(other), os.mkfifo,
        ]
        for number, make in enumerate(makes):
            path = self.path()
            make(path)
            before = self.looks_of(path, other)
            self.refused(f"{path}: {IN_USE}")
            self.assertEqual(self.looks_of(path, other), before, number)
            path.rename(path.with_name(f"kept{number}"))

    @staticmethod
    def looks_of(*paths: pathlib.Path) -> list[tuple[object, ...]]:
        """What would change where something was done to them."""
        found = [(it.lstat(), it.is_symlink() and os.readlink(it), it.is_file() and it.read_text()) for it in paths]
        return [(it.st_mode, it.st_ino, it.st_mtime_ns, *more) for it, *more in found]

    def test_a_folder_that_is_not_there_is_refused(self) -> None:
        folder = f"{self.folder}/folder"
        fault = "No such file or directory (os error 2)"
        self.refused(f"{folder}/{OPERATOR}: {fault}", f"{folder}/{CONTROL}: {fault}", folder=folder)
        self.assertFalse(os.path.exists(folder))

    def test_a_path_of_107_bytes_is_the_longest(self) -> None:
        for more in (0, 1):
            room = PATH + more - len(f"{self.folder}/ü/{CONTROL}".encode())
            folder = f"{self.folder}/ü{'x' * room}"
            os.mkdir(folder)
            config = node(control(0), more=f"spare_control_ports = [{CONTROL + 1}]\n")
            status, output, errors = run(config, "check", "--controls", folder)
            self.assertEqual((status, errors), (0, ""))
            for port in (OPERATOR, CONTROL, CONTROL + 1):
                self.assertEqual(f"warning: {folder}/{port} has more than 107 bytes" in output, bool(more), output)
            status, output, errors = run(config, "serve", "--turns", "0", "--controls", folder)
            self.assertEqual((status, output, errors), (4, "", "bind fault\n") if more else (0, NOTHING, ""))
        status, output, errors = run(config, "daemon", "--controls", folder)
        self.assertEqual((status, output), (4, ""))
        self.assertIn("\nbind fault\n", errors)
        self.assertEqual(os.listdir(folder), [])


class Users(AtPaths):
    """Who may connect."""

    @needs_root
    def test_its_user_and_group_alone_may_connect(self) -> None:
        os.chmod(self.folder, 0o755)
        self.starts(control(0))
        for user, group, may in [(NOBODY, NOBODY, False), (NOBODY, 0, True), (0, NOBODY, True)]:
            for port in (CONTROL, OPERATOR):
                process = fork(lambda: self.connects_as(user, group, port, may))
                self.assertEqual(os.waitpid(process, 0)[1], 0, (user, group, port))

    def connects_as(self, user: int, group: int, port: int, may: bool) -> None:
        """Connects as that user, who may or may not."""
        become(user, group)
        if may:
            Connection(f"{self.folder}/{port}").close()
        else:
            self.assertRaises(PermissionError, Connection, f"{self.folder}/{port}")

    @needs_root
    def test_nobody_else_is_answered_while_it_starts(self) -> None:
        os.chmod(self.folder, 0o755)
        for _ in range(STARTS):
            reads, writes = os.pipe()
            stranger = fork(lambda: self.knock(writes), [writes])
            os.close(writes)
            try:
                # He knocks before the daemon is there, and when it is.
                self.assertEqual(os.read(reads, 1), b"?")
                daemon = Daemon(node(control(0)), words=("--controls", self.folder), umask=0)
                self.addCleanup(daemon.close)
                self.assertEqual(os.read(reads, 1), b"!")
                self.says(self.connects(), b"get 1", NO_HANDLE)
                daemon.end()
            finally:
                os.close(reads)
                os.kill(stranger, signal.SIGKILL)
                self.assertEqual(os.waitpid(stranger, 0)[1], signal.SIGKILL)
            for port in (CONTROL, OPERATOR):
                os.unlink(f"{self.folder}/{port}")

    def knock(self, tells: int) -> None:
        """Connects without pause as another user, and ends where that is answered. Tells by a byte when nothing is
        there, and when it may not."""
        become(NOBODY, NOBODY)
        untold: dict[type[OSError], bytes] = {FileNotFoundError: b"?", PermissionError: b"!"}
        while True:
            with socket.socket(socket.AF_UNIX, socket.SOCK_STREAM) as knocker:
                knocker.settimeout(1)
                try:
                    knocker.connect(f"{self.folder}/{CONTROL}")
                    knocker.sendall(b"get 1\n")
                    self.assertEqual(knocker.recv(64), b"")
                except OSError as fault:
                    os.write(tells, untold.pop(type(fault), b""))


class Words(AtPaths):
    """What is said of the folder, and what a lease may be."""

    MEANT = """\
node {address}: process data at port {pd}, message data at port {md}
operator at {folder}/{operator}
slot 0 at {folder}/{control}: 1 publishers, 0 subscriptions, 0 requesters, 0 listeners, 0 callers, 0 repliers
slot 1, no control port: 0 publishers, 0 subscriptions, 0 requesters, 1 listeners, 0 callers, 0 repliers
slots that are added have, in {folder}, the files {spare}
warning: slot 1 has no control_port: no application can use it
"""
    SPARE = f"spare_control_ports = [{CONTROL + 1}]\n"

    def meant(self, address: str) -> str:
        """What a node there means."""
        return self.MEANT.format(address=address, pd=PD, md=MD, operator=OPERATOR, control=CONTROL, spare=CONTROL + 1,
                                 folder=self.folder)

    def test_a_check_says_the_paths(self) -> None:
        # Without a folder it warns that the network reaches the control ports.
        config = node(control(0, "publishers = 1"), "listeners = 1", more=self.SPARE).replace(HOME, "10.0.0.1")
        self.assertEqual(run(config, "check", "--controls", self.folder), (0, self.meant("10.0.0.1"), ""))
        self.assertIn("\nwarning: the network reaches the control ports", run(config, "check")[1])

    def test_a_daemon_says_the_paths(self) -> None:
        daemon = self.starts(control(0, "publishers = 1"), "listeners = 1", more=self.SPARE)
        self.assertEqual(daemon.path.with_suffix(".errors").read_text(), self.meant(HOME))

    def test_a_service_of_turns_has_the_paths(self) -> None:
        config = pathlib.Path(self.folder) / "node.toml"
        config.write_text(node(control(0)))
        words = [PROGRAM, "serve", str(config), "--turns", str(2**32 - 1), "--controls", self.folder]
        with subprocess.Popen(words, stdout=subprocess.DEVNULL) as service:
            self.addCleanup(service.kill)
            self.says(self.connects(), b"get 1", NO_HANDLE)
            service.kill()
        words = ["serve", "--turns", "0", "--controls", self.folder]
        self.assertEqual(run(node(control(0)), *words), (0, NOTHING, ""))

    def test_what_is_no_lease(self) -> None:
        daemon, serve = ("daemon",), ("serve", "--turns", "0")
        for words, status in [
            ((*daemon, "--lease", "0"), 2), ((*daemon, "--lease", "86401"), 2), ((*daemon, "--lease", "1.5"), 2),
            ((*daemon, "--lease"), 2), ((*serve, "--lease", "0"), 2), ((*serve, "--lease", "86401"), 2),
            ((*serve, "--lease", "1"), 0), ((*serve, "--lease", "86400"), 0), ((*serve, "--controls"), 2),
            (("check", "--lease", "1"), 2), (("run", "--controls", self.folder), 2),
        ]:
            found, output, errors = run(node(control(0)), *words)
            self.assertEqual((found, output), (status, "" if status else NOTHING), words)
            self.assertEqual(errors.startswith("error: "), bool(status), errors)
