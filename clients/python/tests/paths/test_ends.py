"""Applications that end, hang or fall silent: their slot is reset, and no one receives their values any more."""
from __future__ import annotations

import itertools
import select
import socket
import time
import uuid
from collections.abc import Callable
from dataclasses import dataclass

from test_controls import AtPaths, arrived, publish
from test_ports import DEVICE, HOME, Socket, control, node
from testing import CONTROL, MD, OPERATOR, PD, Connection, Holder, wait_until
from trdp_telegram import Telegram

QUOTAS = "publishers = 2\nlisteners = 1\ncallers = 1\nrepliers = 1"
# Each application publishes what begins with OLD, and its successor NEW.
OLD, NEW = b"aa", b"bb00"
# Seconds: the supervision of the display; how long something may still be sent after an end and a lease; for how long
# it is seen then that nothing is, in which a request would be sent again, and a session closed; the lease; within what
# time comes what was sent.
SUPERVISION, AFTER, SEEN, LEASE, SOON = 2.0, 1.0, 1.8, 1, 0.1
SESSION_US = 2_500_000
# How often a display looks at a successor's value, over how many telegrams at the least, and within how many seconds.
LOOKS, TELEGRAMS, LOOKED = 2000, 5, 120
# How many times as long as it should take something may take, and how often it is tried.
MARGIN, TRIES = 10, 3


class Datagrams:
    """A client of a UDP control port, which says lines and hears texts as a connection does."""

    def __init__(self, client: Socket) -> None:
        self.socket = client
        client.settimeout(20)

    def say(self, *lines: bytes) -> None:
        """Says lines."""
        for line in lines:
            self.socket.send(line)

    def hear(self) -> bytes:
        """The next text."""
        return self.socket.recv(65536)


Speaker = Connection | Datagrams


class Display:
    """An application that shows others' values, and keeps what it receives of them."""

    def __init__(self, speaker: Speaker, com_ids: range) -> None:
        self.speaker = speaker
        # By the handle of a subscription its latest indication.
        self.told: dict[int, bytes] = {}
        for com_id in com_ids:
            speaker.say(f"subscribe {com_id} 0 {HOME} {HOME} 0.0.0.0 0 0 {round(SUPERVISION * 1e6)} zero".encode())
            while b" handle " not in (text := speaker.hear()):
                self.keep(text.split())

    def keep(self, words: list[bytes]) -> None:
        """Keeps an indication."""
        assert words[1] in (b"silent", b"alive"), words
        self.told[int(words[2])] = words[1]

    def looks(self, handle: int, times: int = 1) -> list[tuple[bytes, int, bytes]]:
        """That many times the state, the counter and the value that a subscription shows."""
        self.speaker.say(*[b"get %d" % handle] * times)
        shown: list[tuple[bytes, int, bytes]] = []
        while len(shown) < times:
            words = self.speaker.hear().split()
            if words[1] == b"value":
                shown.append((words[2], int(words[3]), words[4]))
            else:
                self.keep(words)
        return shown


def remark(*speakers: Speaker) -> None:
    """They say that they are there, so that no lease ends them."""
    for speaker in speakers:
        speaker.say(b"#")


class Spoken(AtPaths):
    """Applications at paths, or at UDP ports where they have a lease."""

    is_at_paths = True

    def speaks(self, slot: int) -> Speaker:
        """The application that speaks for a slot from now on."""
        return self.connects(CONTROL + slot) if self.is_at_paths else Datagrams(self.client(CONTROL + slot))

    def calls(self, speaker: Speaker, slot: int, *calls: tuple[str | bytes, str]) -> None:
        """The calls have these answers."""
        for line, answer in calls:
            speaker.say(line if isinstance(line, bytes) else line.encode())
            self.assertEqual(speaker.hear(), f"{slot} {answer}\n".encode(), line)

    def holds(self, speaker: Speaker, act: Callable[[socket.socket], object] = id) -> Holder:
        """A process that has the speaker's socket from now on, and does that with it."""
        holder = Holder(speaker.socket, act)
        self.addCleanup(holder.kill)
        return holder


def put(number: int) -> bytes:
    """A call by which a publisher has another value."""
    return b"put 1 %s%02x\n" % (OLD, number % 256)


def puts_once(held: socket.socket) -> None:
    held.send(put(1))


def puts_500_times(held: socket.socket) -> None:
    for number in range(500):
        held.send(put(number))


def puts_until_the_end(held: socket.socket) -> None:
    number = 0
    while True:
        held.send(put(number))
        number += 1
        time.sleep(0.01)


def says_a_piece(held: socket.socket) -> None:
    held.send(publish((HOME, PD)))


@dataclass
class End:
    """How an application ends: what it does before, what the process does that has its socket, and whether that is
    stopped before it is killed; how many handles the slot has given out then."""

    name: str
    before: Callable[[Ends, Speaker, int], None]
    does: Callable[[socket.socket], object] = id
    is_stopped: bool = False
    handles: int = 2
    is_at_ports: bool = True


class Ends(Spoken):
    """A process that is an application is killed, wherever it is."""

    def nothing(self, speaker: Speaker, slot: int) -> None:
        """Says nothing."""

    def publishes(self, speaker: Speaker, slot: int) -> None:
        """Has a publisher to the display, and one to a device."""
        self.calls(speaker, slot, (publish((HOME, PD), slot), "handle 1"),
                   (publish(self.telegrams.getsockname(), slot), "handle 2"),
                   (b"put 1 %s00" % OLD, "done"), (b"put 2 %s00" % OLD, "done"))

    def requests(self, speaker: Speaker, slot: int) -> None:
        """Has sent a request too, which is sent again if it isn't answered."""
        self.publishes(speaker, slot)
        place = "{}:{}".format(*self.messages.getsockname())
        line = f"request 300 {uuid.UUID(int=slot)} 1 {SESSION_US} - - 0 0 {place} 0d 2"
        self.calls(speaker, slot, (line, "handle 3"))

    def is_asked(self, speaker: Speaker, slot: int) -> None:
        """Has heard a request too."""
        self.publishes(speaker, slot)
        self.calls(speaker, slot, (f"listen {slot} 0.0.0.0 0.0.0.0 0.0.0.0 - 0 0", "handle 3"))
        asked = Telegram("Mr", slot, session=uuid.UUID(int=slot), time_us=SESSION_US)
        self.messages.sendto(asked.write(), (HOME, MD))
        self.assertIn(b" asked 3 4 ", speaker.hear())

    def queries(self, speaker: Speaker, slot: int) -> None:
        """Has answered the request by a query."""
        self.is_asked(speaker, slot)
        self.calls(speaker, slot, (f"query 4 301 0 {SESSION_US} 0c", "done"))

    def test_at_a_path(self) -> None:
        # rule: slot.end: after each way to end the slot is empty
        # rule: slot.reset: nothing is sent for the slot any more, and its quotas are whole
        self.ends(ENDS, 0, "--controls", self.folder)

    def test_at_a_port_under_a_lease(self) -> None:
        # rule: slot.silence: after each way to end the slot is empty behind the lease
        # rule: slot.reset: nothing is sent for the slot any more, and its quotas are whole
        self.is_at_paths = False
        self.ends([it for it in ENDS if it.is_at_ports], LEASE, "--lease", str(LEASE))

    def are_killed(self, ends: list[End], *words: str) -> Display:
        """Has an application in a slot of its own for each of these ends, and kills them; in one more slot is the
        display that this answers."""
        self.telegrams, self.messages = self.socket(DEVICE), self.socket(DEVICE)
        slots = range(len(ends))
        self.daemon(node(*(control(it, QUOTAS) for it in slots), control(len(ends), "subscriptions = 16")), *words)
        display = Display(self.speaks(len(ends)), slots)
        speakers = [self.speaks(it) for it in slots]
        shown = [it for it in slots if ends[it].handles]
        for slot, end in enumerate(ends):
            end.before(self, speakers[slot], slot)
            remark(display.speaker, *(speakers[it] for it in shown if it < slot))
        for slot in shown:
            wait_until(lambda: self.is_shown(display, slot + 1, [speakers[it] for it in shown]))
        holders = []
        for speaker, end in zip(speakers, ends):
            remark(display.speaker)
            holders.append(self.holds(speaker, end.does))
        self.kill(display, ends, holders)
        return display

    def ends(self, ends: list[End], lease: float, *words: str) -> None:
        """Has an application end in each of these ways, and another one come after it."""
        display = self.are_killed(ends, *words)
        self.are_over(display, len(ends) + 1, time.monotonic() + lease + AFTER)
        for handle in (number for number, end in enumerate(ends, 1) if end.handles):
            with self.subTest(ends[handle - 1].name):
                wait_until(lambda: display.looks(handle)[0][0] == b"Silent")
                self.assertEqual(display.told[handle], b"silent")
                state, _, value = display.looks(handle)[0]
                self.assertEqual((state, value), (b"Silent", b"0000"))
        self.are_followed(display, ends)

    def is_shown(self, display: Display, handle: int, speakers: list[Speaker]) -> bool:
        """Whether that subscription shows a value. The applications aren't silent meanwhile."""
        remark(*speakers)
        return display.looks(handle)[0][0] == b"Valid"

    def kill(self, display: Display, ends: list[End], holders: list[Holder]) -> None:
        """Kills these processes, once they do what they do."""
        for end, holder in zip(ends, holders):
            if end.is_stopped:
                holder.stop()
        operator = self.speaks(OPERATOR - CONTROL)
        # Each question is taken too, and each remark of the display.
        before, asked = taken(operator), itertools.count(2, 2)

        def are_at_work() -> bool:
            remark(display.speaker)
            return taken(operator) - next(asked) > before + 30

        wait_until(are_at_work)
        for holder in holders:
            holder.kill()

    def are_over(self, display: Display, slots: int, end: float) -> None:
        """From that time on nothing is sent any more; on a slow machine, once all slots but the display's are reset."""
        sinks, operator = [self.telegrams, self.messages], self.speaks(OPERATOR - CONTROL)

        def are_reset() -> bool:
            # The display isn't silent, so that no lease ends it.
            display.looks(1)
            publishers = {words[1] for words in shares(operator, slots)}
            for sink in sinks:
                arrived(sink)
            return publishers <= {b"0/2", b"0/0"}

        wait_until(are_reset, MARGIN * (LEASE + AFTER))
        end = max(end, time.monotonic() + SOON)
        while (now := time.monotonic()) < end + SEEN:
            display.looks(1)
            came = [data for it in select.select(sinks, [], [], 0.05)[0] for data in arrived(it)]
            if now > end:
                self.assertEqual(came, [])

    def are_followed(self, display: Display, ends: list[End]) -> None:
        """The successors have all that they may have, and get nothing from before. From the first look on that shows
        one's value none shows another."""
        speakers = [self.speaks(it) for it in range(len(ends))]
        for slot, end in enumerate(ends):
            handle = end.handles + 1
            remark(display.speaker, *speakers[:slot])
            with self.subTest(end.name):
                self.calls(speakers[slot], slot, (publish((HOME, PD), slot), f"handle {handle}"),
                           (b"put %d %s" % (handle, NEW), "done"),
                           (publish(self.telegrams.getsockname(), slot), f"handle {handle + 1}"),
                           *((f"abort {it}", "refused NoHandle") for it in range(1, handle)))
        seen: list[list[tuple[bytes, int, bytes]]] = [[] for _ in ends]
        wait_until(lambda: self.look_again(display, speakers, seen), seconds=LOOKED)
        for slot, end in enumerate(ends):
            with self.subTest(end.name):
                self.assertEqual({value for _, _, value in seen[slot]}, {NEW})
                self.calls(speakers[slot], slot, ("get 99", "refused NoHandle"))

    def look_again(self, display: Display, speakers: list[Speaker], seen: list[list[tuple[bytes, int, bytes]]]) -> bool:
        """Looks at each value, and keeps what is seen from a successor's value on; whether that is enough."""
        for slot, so_far in enumerate(seen):
            remark(*speakers)
            looks = display.looks(slot + 1, 100)
            so_far += looks if so_far else itertools.dropwhile(lambda it: it[2] != NEW, looks)
        return all(len(it) >= LOOKS and it[-1][1] >= it[0][1] + TELEGRAMS for it in seen)


def shares(operator: Speaker, slots: int) -> list[list[bytes]]:
    """What each of that many slots has and may have at most, as an operator is told it, behind its number."""
    operator.say(b"slots")
    text = b""
    while text.count(b"\n") < slots:
        text += operator.hear()
    return [line.split() for line in text.splitlines()]


def totals(operator: Speaker) -> list[int]:
    """What the daemon has counted so far: taken, offered, lost, unread, memory."""
    operator.say(b"totals")
    return [int(word) for word in operator.hear().split()[1::2]]


def taken(operator: Speaker) -> int:
    """How many lines and datagrams the daemon has taken so far."""
    return totals(operator)[0]


class Counts(AtPaths):
    """What an end counts for."""

    def test_an_end_is_taken_and_told_to_nobody(self) -> None:
        # rule: slot.end: an end is counted as a call, and answered to nobody
        self.starts(control(0, QUOTAS))
        operator, application = self.connects(OPERATOR), self.connects()
        for line, answer in [(publish(), b"0 handle 1\n"), (b"reset", b"0 done\n")]:
            application.say(line)
            self.assertEqual(application.hear(), answer)
        # Each question is taken, and then offered an answer.
        asked = itertools.count(1)
        before = totals(operator)
        self.assertEqual(before[:2], [2 + next(asked), 2])
        application.close()
        wait_until(lambda: totals(operator)[0] == 3 + next(asked))
        questions = next(asked)
        self.assertEqual(totals(operator), [3 + questions, 1 + questions, 0, 0, 0])


ENDS = [
    End("before its first line", Ends.nothing, handles=0, is_at_ports=False),
    End("within a line", Ends.publishes, says_a_piece, is_at_ports=False),
    End("between two lines", Ends.publishes),
    End("with a call unanswered", Ends.publishes, puts_once),
    End("in a burst of 500 calls", Ends.publishes, puts_500_times),
    End("publishing", Ends.publishes, puts_until_the_end),
    End("with a request unanswered", Ends.requests, handles=3),
    End("asked and not answered", Ends.is_asked, handles=4),
    End("with a query not confirmed", Ends.queries, handles=4),
    End("stopped", Ends.publishes, is_stopped=True),
]
