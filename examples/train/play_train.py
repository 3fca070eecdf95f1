"""The train: five devices on one network, and how to wait for what they report."""
from __future__ import annotations

import pathlib
import selectors
import sys
import time
from collections.abc import Callable

from play_device import Device, Differs, Seen
from play_network import WAIT, Network
from train import ALL, DIAGNOSIS, DOORS, SEEN

ALL_OF_IT = 300.0
"""How many seconds the whole play may take."""


class Ended(BaseException):
    """The program that started this one has ended, so that this one ends too."""


class Train:
    """The devices. Standard input is the stream whose end says that the play is to end."""

    def __init__(self, program: str, folder: pathlib.Path) -> None:
        self.begin = time.monotonic()
        self.program = program
        self.selector = selectors.DefaultSelector()
        self.selector.register(sys.stdin, selectors.EVENT_READ)
        network = Network()

        def device(name: str, words: list[str], address: str, groups: list[str]) -> Device:
            return Device(network, name, words, address, groups, folder)

        both = [SEEN, ALL]
        self.doors_1 = device("doors 1", ["doors.py", "1"], DOORS[0], both)
        self.doors_2 = device("doors 2", ["doors.py", "2"], DOORS[1], both)
        self.display_1 = device("display 1", ["display.py", "display 1"], "10.0.1.31", both)
        # It joins the other group in the first step.
        self.display_2 = device("display 2", ["display.py", "display 2"], "10.0.1.32", [ALL])
        self.diagnosis = device("diagnosis", ["diagnosis.py"], DIAGNOSIS, [SEEN])
        self.displays = [self.display_1, self.display_2]
        self.devices = [self.doors_1, self.doors_2, *self.displays, self.diagnosis]

    def start(self) -> None:
        """Starts all daemons, and all applications but that of diagnosis."""
        for device in self.devices:
            device.start_daemon(self.program)
        for device in self.devices:
            self.wait(f"the daemon of {device.name} answers", device.is_up)
        for device in (self.doors_1, self.doors_2, *self.displays):
            self.start_application(device)
        for device in (self.doors_1, self.doors_2, *self.displays):
            self.wait(f"{device.name} is there", lambda: bool(device.since(0, "ready")))

    def end(self) -> None:
        """Ends all processes of the devices."""
        for device in self.devices:
            device.end()

    def start_application(self, device: Device) -> None:
        """Starts the application of a device, and reads what it reports from then on."""
        if device.application is not None and device.application.stdout is not None:
            self.selector.unregister(device.application.stdout)
        device.start_application()
        assert device.application is not None and device.application.stdout is not None
        self.selector.register(device.application.stdout, selectors.EVENT_READ, device)

    def steady(self) -> None:
        """Has every link and every group as at the beginning, and waits until doors 1 leads alone."""
        for device in self.devices:
            device.set_cable("up")
            device.set_link("up")
        self.display_2.join(SEEN)
        self.display_1.drop_nothing()
        begin = time.monotonic()
        for display in self.displays:
            self.wait_for_telegram(display, 1, begin)
        self.wait("doors 2 follows", lambda: not self.doors_2.leads())

    # -- waiting --------------------------------------------------------------

    def wait(self, what: str, is_so: Callable[[], bool]) -> None:
        """Waits until something is so, and reads what the applications report meanwhile."""
        begin = time.monotonic()
        end = min(begin + WAIT, self.begin + ALL_OF_IT)
        while not is_so():
            if time.monotonic() > end:
                raise Differs(f"not within {end - begin:.0f} s: {what}")
            # Not everything is reported by an application, so that this looks again now and then.
            for key, _ in self.selector.select(0.05):
                if key.data is None:
                    raise Ended
                key.data.hear()
            for device in self.devices:
                device.look()

    def wait_for(self, device: Device, kind: str, moment: float) -> Seen:
        """Waits for the first report of a kind from a device since then, and returns it."""
        self.wait(f"{device.name} tells: {kind}", lambda: bool(device.since(moment, kind)))
        return device.since(moment, kind)[0]

    def wait_for_telegram(self, device: Device, controller: int, moment: float) -> Seen:
        """Waits for the first telegram of a controller that a device shows since then, and returns it."""
        self.wait(f"{device.name} shows what doors {controller} says", lambda: bool(device.shows(moment, controller)))
        return next(it for it in device.since(moment, "shows") if it.controller == controller)
