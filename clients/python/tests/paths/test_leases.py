"""Leases: a slot is reset after so long a silence of its application, and not before."""
from __future__ import annotations

import os
import select
import signal
import time

from test_controls import arrived, publish
from test_edge import is_in, pid
from test_ends import LEASE, MARGIN, NEW, TRIES, Datagrams, Speaker, Spoken, remark, shares
from test_ports import DEVICE, HOME, KEPT, control, node
from testing import CONTROL, OPERATOR, PD, Holder, wait_until


class Leases(Spoken):
    """A slot is reset after the silence of its application, and not before: at a path, and at a UDP port."""

    # Seconds: of a publisher; between two lines of an application, so long that each of them has to count, and for how
    # long it says them; for how long a daemon is stopped.
    CYCLE, REMARK, REMARKED, STOPPED = 0.01, 0.6, 3.0, 3.0
    SLOTS = 2

    def setUp(self) -> None:
        super().setUp()
        text = node(*(control(it, "publishers = 1") for it in range(self.SLOTS)))
        lease = "--lease", str(LEASE)
        self.daemons = [self.daemon(text, *lease, "--controls", self.folder),
                        self.daemon(text.replace(HOME, KEPT), *lease)]

    def both(self, port: int = CONTROL) -> list[Speaker]:
        """The application that speaks at that port from now on, of each daemon."""
        return [self.connects(port), Datagrams(self.client(port, KEPT))]

    def publishes(self, speaker: Speaker, slot: int, number: int, place: tuple[str, int], cycle: float = CYCLE) -> None:
        """Has a publisher of that handle."""
        self.calls(speaker, slot, (publish(place, cycle=cycle), f"handle {number}"),
                   (b"put %d %s" % (number, NEW), "done"))

    def has_none(self, operator: Speaker, slot: int) -> bool:
        """Whether that slot has no publisher."""
        return shares(operator, self.SLOTS)[slot][1] == b"0/1"

    def test_one_that_hangs_is_over_behind_the_lease(self) -> None:
        # rule: slot.lease: its publisher ends once the silence is longer, not before
        for application, operator in zip(self.both(), self.both(OPERATOR)):
            sink = self.socket(DEVICE)
            # The turn that takes the last line begins after the one that takes the line before, and so after this.
            begin = latest = time.monotonic()
            self.publishes(application, 0, 1, sink.getsockname())
            application.say(b"#")
            holder = Holder(application.socket.dup())
            self.addCleanup(holder.kill)
            holder.stop()
            while not self.has_none(operator, 0):
                latest = time.monotonic() if arrived(sink) else latest
                self.assertLess(time.monotonic(), begin + MARGIN * LEASE)
            # What came while this didn't look: by now at the latest.
            latest = time.monotonic() if arrived(sink) else latest
            self.assertGreaterEqual(latest - begin, LEASE - self.CYCLE)
            # It learns of it, and goes on.
            self.calls(application, 0, (b"put 1 00", "refused NoHandle"))
            self.publishes(application, 0, 2, sink.getsockname())
            self.assertTrue(select.select([sink], [], [], MARGIN * LEASE)[0])

    def test_one_that_speaks_is_not(self) -> None:
        applications = self.both()
        self.assertTrue(any(self.are_left(applications, number) for number in range(1, TRIES + 1)))

    def are_left(self, applications: list[Speaker], number: int) -> bool:
        """Whether each application has its publisher of that handle still when it has made remarks for long enough."""
        for application in applications:
            application.say(b"reset")
            self.assertEqual(application.hear(), b"0 done\n")
            self.publishes(application, 0, number, (DEVICE, PD))
        end = time.monotonic() + self.REMARKED
        while time.monotonic() < end:
            for line, answer in ((b"#", b""), (b"", b""), (b"no line", b"line fault Unknown\n")):
                time.sleep(self.REMARK)
                for application in applications:
                    application.say(line)
                    self.assertEqual(application.hear() if answer else b"", answer)
        for application in applications:
            application.say(b"put %d 00" % number)
        return [it.hear() for it in applications] == [b"0 done\n"] * 2

    def test_a_daemon_that_was_stopped_takes_before_it_judges(self) -> None:
        # Nothing is due, so that each daemon rests.
        silent, speaking = self.both(CONTROL + 1), self.both()
        for slot, applications in enumerate((speaking, silent)):
            for application in applications:
                self.publishes(application, slot, 1, (DEVICE, PD), 1000)
        remark(*speaking)
        for daemon in self.daemons:
            wait_until(lambda: is_in(daemon, "S"))
            os.kill(pid(daemon), signal.SIGSTOP)
            wait_until(lambda: is_in(daemon, "T"))
        for application in speaking:
            application.say(b"#")
        time.sleep(self.STOPPED)
        for daemon in self.daemons:
            os.kill(pid(daemon), signal.SIGCONT)
        for operator in self.both(OPERATOR):
            # What was judged stays so, and no lease runs out from here on.
            remark(*speaking)
            wait_until(lambda: self.has_none(operator, 1))
            self.assertFalse(self.has_none(operator, 0))
