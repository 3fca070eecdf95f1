"""What a daemon reports on standard error: why it can't begin, why it failed to take something, which of its files are
gone, and which of its ports are missing in its configuration."""
from __future__ import annotations

import os
import pathlib
import re
import resource
import socket
import subprocess
import unittest

from test_controls import NO_HANDLE, AtPaths
from test_control_files import run
from test_ports import control, node
from testing import CONTROL, OPERATOR, PROGRAM, Daemon, wait_until

# How long what comes within a second is waited for.
PATIENCE = 10.0
FULL = "Too many open files (os error 24)"
NO_OPERATOR = ("warning: the node has no operator_port: nobody can make it lead a redundancy group, set its topology "
               "counters or add a slot")
NO_CALLS = "warning: slot 1 has no control_port: no application can use it"
NO_INODE = "No space left on device (os error 28)"
needs_mount = unittest.skipUnless(os.geteuid() == 0, "a folder without inodes: only root can mount one")


def errors_of(daemon: Daemon) -> str:
    """What the daemon has on its error stream."""
    return daemon.path.with_suffix(".errors").read_text()


class Reports(AtPaths):
    """What is reported, at control sockets and at UDP ports."""

    def ended(self, descriptors: int, *words: str) -> str:
        """What a daemon says that may have that many descriptors, and ends."""
        path = pathlib.Path(self.folder) / "node.toml"
        path.write_text(node(control(0), control(1)))

        def limit() -> None:
            resource.setrlimit(resource.RLIMIT_NOFILE, (descriptors, descriptors))

        errors = pathlib.Path(self.folder) / "errors"
        with errors.open("wb") as out:
            daemon = subprocess.Popen([PROGRAM, "daemon", str(path), *words], stderr=out, preexec_fn=limit)
            self.addCleanup(daemon.kill)
            self.assertEqual(daemon.wait(PATIENCE), 4)
        return errors.read_text()

    def test_a_bind_fault_says_that_descriptors_ran_out(self) -> None:
        # Over UDP the daemon needs 9 descriptors: the streams, five ports, and one to wait at these. With control
        # sockets it needs 13.
        for words, needed in (((), 9), (("--controls", self.folder), 13)):
            for descriptors in range(4, needed):
                said = self.ended(descriptors, *words)
                reason = said.partition("bind fault\n")[2].splitlines()[:1]
                self.assertRegex("".join(reason), rf"(port \S+|a wait at the ports): {re.escape(FULL)}$",
                                 (words, descriptors, said))

    @needs_mount
    def test_a_bind_fault_says_that_inodes_ran_out(self) -> None:
        path = pathlib.Path(self.folder) / "node.toml"
        path.write_text(node(control(0), control(1)))
        folder = pathlib.Path(self.folder) / "few"
        folder.mkdir()
        line = 'mount -t tmpfs -o nr_inodes=2 few "$0" && exec "$@"'
        words = [PROGRAM, "daemon", str(path), "--controls", str(folder)]
        ran = subprocess.run(["unshare", "-m", "sh", "-c", line, str(folder), *words], capture_output=True, text=True,
                             timeout=PATIENCE)
        if "mount" in ran.stderr or "unshare" in ran.stderr:
            self.skipTest(f"a folder without inodes: {ran.stderr.strip()}")
        self.assertEqual(ran.returncode, 4, ran.stderr)
        self.assertIn(f"bind fault\nport {folder}/{CONTROL}: {NO_INODE}\n", ran.stderr)

    def test_unread_has_its_reason(self) -> None:
        daemon = self.starts(control(0))
        number = daemon.process.pid
        first = self.connects()
        self.says(first, b"get 9", NO_HANDLE)
        there = len(os.listdir(f"/proc/{number}/fd"))
        limits = resource.prlimit(number, resource.RLIMIT_NOFILE)
        resource.prlimit(number, resource.RLIMIT_NOFILE, (there, limits[1]))
        other = socket.socket(socket.AF_UNIX, socket.SOCK_STREAM)
        self.addCleanup(other.close)
        other.connect(f"{self.folder}/{CONTROL}")
        form = re.compile(rf"unread [1-9]\d* since the last line, the latest at the control port of slot 0: "
                          rf"{re.escape(FULL)}\n")
        wait_until(lambda: form.search(errors_of(daemon)) is not None, PATIENCE)
        # Once there is a descriptor, the connection is answered.
        resource.prlimit(number, resource.RLIMIT_NOFILE, limits)
        other.settimeout(PATIENCE)
        self.assertEqual(other.recv(100), b"busy\n")

    def test_a_removed_file_is_named(self) -> None:
        daemon = self.starts(control(0), control(1))
        application = self.connects()
        self.says(application, b"get 9", NO_HANDLE)
        behind = "nobody can connect there until the daemon is started again"
        for port, words in ((CONTROL, f"missing {self.folder}/{CONTROL}: {behind}"),
                            (OPERATOR, f"missing {self.folder}/{OPERATOR} and 1 more: {behind}")):
            (pathlib.Path(self.folder) / str(port)).unlink()
            wait_until(lambda: words in errors_of(daemon).splitlines(), PATIENCE)
        self.says(application, b"get 9", NO_HANDLE)
        self.assertEqual(errors_of(daemon).count("missing"), 2)

    def test_ports_that_are_missing_are_told(self) -> None:
        config = node(control(0, "listeners = 1"), "listeners = 1").replace(f"operator_port = {OPERATOR}\n", "")
        words = [NO_OPERATOR, NO_CALLS]
        daemon = self.daemon(config)
        for said in (errors_of(daemon), run(config, "check")[1], run(config, "check", "--controls", self.folder)[1]):
            self.assertEqual([it for it in said.splitlines() if it.startswith("warning: ")], words, said)

    def test_no_folder_is_none(self) -> None:
        for words in (("check",), ("daemon",), ("serve", "--turns", "0")):
            status, output, errors = run(node(control(0)), *words, "--controls", "")
            self.assertEqual((status, output), (2, ""))
            self.assertIn("a value is required for '--controls <FOLDER>' but none was supplied", errors)
        self.assertFalse(pathlib.Path(f"/{CONTROL}").exists())
