"""The steps that are played with the train. Each returns the lines that say what it has shown."""
from __future__ import annotations

import time
from collections.abc import Callable
from typing import NamedTuple

import play_compare
from play_device import Device
from play_network import Refuses
from play_train import Train
from train import ALL, DIAGNOSIS, PD, REDUNDANT, SEEN


class Step(NamedTuple):
    """A step, and the devices that report a silence or lead in it; elsewhere a busy machine alone has them do so."""

    show: Callable[[Train], list[str]]
    exceptions: tuple[str, ...] = ()


def joining(train: Train) -> list[str]:
    """A display hears a group from when its link joins it."""
    train.display_2.leave(SEEN)
    train.start_application(train.display_2)
    begin = train.wait_for(train.display_2, "ready", 0).at
    train.wait("display 1 shows five telegrams", lambda: len(train.display_1.shows(begin)) >= 5)
    passed = len(train.display_1.shows(begin))
    play_compare.must_hear_nothing(train.display_2, begin)
    joined = time.monotonic()
    train.display_2.join(SEEN)
    heard = train.wait_for_telegram(train.display_2, 1, joined)
    return [
        f"Display 2 has not joined {SEEN}, and receives none of {passed} telegrams. It joins, and receives the next "
        f"telegram after {heard.at - joined:.2f} s."]


def sameness(train: Train) -> list[str]:
    """Both displays show the same bytes."""
    begin = time.monotonic()
    counters: set[int] = set()

    def are_there() -> bool:
        counters.update(train.display_1.shows(begin).keys() & train.display_2.shows(begin).keys())
        return len(counters) >= 10

    train.wait("both displays show the same ten telegrams", are_there)
    play_compare.must_show_the_same(train.displays, begin)
    return [
        f"Both displays show the same bytes for each of {len(counters)} telegrams, the latest "
        f"{train.display_1.shows(begin)[max(counters)]}."]


def asking(train: Train) -> list[str]:
    """All devices answer a request to a group."""
    train.start_application(train.diagnosis)
    train.wait_for(train.diagnosis, "closed", 0)
    names = play_compare.names_of_all(train.diagnosis)
    return [f"Diagnosis asks {ALL} who is there, and {len(names)} devices answer: {', '.join(names)}."]


def dropping(train: Train) -> list[str]:
    """A telegram that is lost on the way to one display is missing there alone."""
    begin = time.monotonic()
    try:
        train.display_1.drop_each_fourth()
    except Refuses as fault:
        return [f"What nft drops is left out: {fault}."]
    train.wait("twenty telegrams pass", lambda: len(train.display_2.shows(begin)) >= 20)
    dropped = train.display_1.dropped()
    train.display_1.drop_nothing()
    dropped_until = time.monotonic()
    for display in train.displays:
        train.wait_for_telegram(display, 1, dropped_until)
    missing = play_compare.missing_by_drops(train.displays, begin, dropped)
    return [
        f"nft drops each fourth telegram before display 1, {dropped} of them. Its counters miss "
        f"{', '.join(map(str, missing))}, and no other device notices."]


def takeover(train: Train) -> list[str]:
    """Doors 2 leads while the cable of doors 1 is pulled."""
    before = train.doors_1.totals()
    pulled = time.monotonic()
    train.doors_1.set_cable("down")
    leads = train.wait_for(train.doors_2, "leads", pulled)
    dark = [dark_seconds(train, it, pulled) for it in train.displays]
    after = train.doors_1.totals()
    plugged = time.monotonic()
    train.doors_1.set_cable("up")
    heard = max(train.wait_for_telegram(it, 1, plugged).at for it in train.displays)
    follows = train.wait_for(train.doors_2, "follows", plugged)
    play_compare.must_lose_none(before, after)
    return [
        f"The cable of doors 1 is pulled. {leads.at - pulled:.2f} s later the application of doors 2, which receives "
        f"nothing, sends `role {REDUNDANT} leader`.",
        f"The displays receive nothing for {dark[0]:.2f} s and {dark[1]:.2f} s, less than their supervision time, so "
        f"neither reports a silence. Doors 1 goes on sending and counts no loss: lost 0.",
        f"The cable is back. The displays hear doors 1 after {heard - plugged:.2f} s, and doors 2 follows after "
        f"{follows.at - plugged:.2f} s."]


def dark_seconds(train: Train, display: Device, pulled: float) -> float:
    """How long a display shows nothing, from the latest telegram of doors 1 to the first one of doors 2.

    The latest one may have been on its way when the cable was pulled.
    """
    switched = train.wait_for_telegram(display, 2, pulled).at
    return switched - max(it.at for it in display.since(0, "shows") if it.controller == 1 and it.at < switched)


def refusing(train: Train) -> list[str]:
    """While its link is down, what doors 1 sends to an address is refused; what it sends to a group is swallowed."""
    before = train.doors_1.totals()
    down = time.monotonic()
    train.doors_1.set_link("down")
    train.wait("three telegrams are refused", lambda: train.doors_1.totals().lost >= before.lost + 3)
    train.wait_for(train.doors_2, "leads", down)
    up = time.monotonic()
    train.doors_1.set_link("up")
    heard = max(train.wait_for_telegram(it, 1, up).at for it in train.displays)
    lost = train.doors_1.totals().lost - before.lost
    train.wait_for(train.doors_2, "follows", up)
    why = f"{DIAGNOSIS}:{PD}: Network is unreachable"
    train.wait(f"doors 1 says {why}", lambda: why in train.doors_1.errors("daemon").read_text())
    swallowed = play_compare.swallowed_of(train.display_1, down, lost)
    return [
        f"The link of doors 1 is set down. The system refuses its telegrams to diagnosis, lost {lost}, and drops the "
        f"{swallowed} to the group without an error.",
        f"The link is up again, and the displays hear doors 1 after {heard - up:.2f} s."]


def silence(train: Train) -> list[str]:
    """A display reports a silence while its link is down, and no other device does."""
    down = time.monotonic()
    train.display_1.set_link("down")
    silent = train.wait_for(train.display_1, "silent", down)
    up = time.monotonic()
    train.display_1.set_link("up")
    alive = train.wait_for(train.display_1, "alive", up)
    train.wait_for_telegram(train.display_1, 1, up)
    return [
        f"The link of display 1 is set down. It receives `silent` after {silent.at - down:.1f} s, and no other device "
        f"does. The link is up again, and it receives `alive` after {alive.at - up:.2f} s."]


STEPS = (Step(joining, ("display 2",)), Step(sameness), Step(asking), Step(dropping), Step(takeover, ("doors 2",)),
         Step(refusing, ("doors 2",)), Step(silence, ("display 1",)))
