"""What a step compares. Each function raises Differs where the devices have seen something else."""
from __future__ import annotations

from collections.abc import Sequence

from play_device import Device, Differs
from train import SEEN
from trdp_slot import Totals


class Unsteady(Differs):
    """A device has seen what a busy machine alone brings about, for example a silence."""


def must_be_calm(devices: list[Device], begin: float, exceptions: Sequence[str]) -> None:
    """No device but these has reported since then that it is silent, or that it leads."""
    for device in devices:
        if device.name not in exceptions and (told := device.since(begin, "silent", "leads")):
            raise Unsteady(f"{device.name} tells: {told[0].kind}")


def must_hear_nothing(display: Device, begin: float) -> None:
    """A display whose link hasn't joined the group has shown nothing since then."""
    if display.since(begin, "shows"):
        raise Differs(f"{display.name} hears {SEEN}, which its link hasn't joined")


def must_show_the_same(displays: list[Device], begin: float) -> None:
    """The displays have shown the same bytes for each counter since then."""
    first, second = (it.shows(begin) for it in displays)
    for counter in first.keys() & second.keys():
        if first[counter] != second[counter]:
            raise Differs(f"of {counter} display 1 shows {first[counter]}, and display 2 {second[counter]}")


def names_of_all(diagnosis: Device) -> list[str]:
    """The names of the devices that have answered diagnosis: each one but itself. Its request is done."""
    closed = diagnosis.since(0, "closed")[0]
    names = sorted(it.name for it in diagnosis.since(0, "replied"))
    if (names, closed.reason) != (["display 1", "display 2", "doors 1", "doors 2"], "Done"):
        raise Differs(f"diagnosis has answers of {names}, and is {closed.reason}")
    return names


def missing_by_drops(displays: list[Device], begin: float, dropped: int | None) -> list[int]:
    """The counters that display 1 misses since then: each fourth one, and as many as nft has dropped."""
    first, second = (it.shows(begin) for it in displays)
    # The first telegram after the rule may be one that nft drops.
    before = latest_counter(displays[0], begin)
    missing = sorted(it for it in second.keys() - first.keys() if before < it < max(first))
    must_show_the_same(displays, begin)
    if second.keys() != set(range(min(second), max(second) + 1)):
        raise Unsteady(f"display 2 didn't see all of {min(second)} to {max(second)}")
    if dropped is None or len(missing) != dropped or any(it % 4 for it in missing):
        raise Unsteady(f"nft dropped {dropped}, and display 1 misses {missing}")
    return missing


def latest_counter(display: Device, moment: float) -> int:
    """The latest counter of doors 1 that a display has shown before then."""
    return max(it.counter for it in display.since(0, "shows") if it.controller == 1 and it.at < moment)


def must_lose_none(before: Totals, after: Totals) -> None:
    """The daemon of doors 1 has counted no telegram as lost in between."""
    if after.lost != before.lost:
        raise Differs(f"{after.lost - before.lost} telegrams of doors 1 are counted as lost")


def swallowed_of(display: Device, down: float, lost: int) -> int:
    """How many telegrams of doors 1 a display misses since its link went down: one more or less than were lost.

    Each of these telegrams went out twice, to the group and to diagnosis. Those before the link was down may be shown
    after that moment.
    """
    latest = latest_counter(display, down)
    shown = sorted(it for it in display.shows(0) if it >= latest)
    swallowed = max(after - before - 1 for before, after in zip(shown, shown[1:]))
    if abs(swallowed - lost) > 1:
        # A display that is late misses further ones.
        kind = Unsteady if swallowed > lost else Differs
        raise kind(f"{lost} telegrams are counted as lost, and {swallowed} to the group were swallowed")
    return swallowed
