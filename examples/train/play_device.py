"""A device of the train: its link, its daemon, and its application, which reports what it sees."""
from __future__ import annotations

import dataclasses
import json
import os
import pathlib
import re
import subprocess
import sys

from play_network import LINK, Network, inside, ip, run
from train import PATIENCE_US, PD, SEEN
from trdp_slot import Nobody, Operator, Totals

HERE = pathlib.Path(__file__).resolve().parent
TABLE = "trdpd_drop"
# The last two bits of a sequence counter, which is the first field after the header of UDP.
DROP = f"""
table inet {TABLE} {{
    chain input {{
        type filter hook input priority filter; policy accept;
        ip daddr {SEEN} udp dport {PD} @th,88,8 & 3 == 0 counter drop
    }}
}}
"""


class Differs(Exception):
    """The train doesn't show what it should."""


@dataclasses.dataclass(frozen=True)
class Seen:
    """What an application reports, and when. A telegram has the kind `shows`."""

    kind: str
    at: float
    counter: int = 0
    controller: int = 0
    data: str = ""
    name: str = ""
    reason: str = ""
    com_id: int = 0


class Device:
    """A device, in a network namespace of its own."""

    def __init__(self, network: Network, name: str, words: list[str], address: str, groups: list[str],
                 folder: pathlib.Path) -> None:
        self.name = name
        self.words = words
        self.port = name.replace(" ", "_")  # of the bridge
        self.config = HERE / f"{self.port}.toml"
        self.controls = folder / self.port
        self.controls.mkdir()
        self.namespace = network.namespace()
        network.plug(self.namespace, self.port, address)
        for group in groups:
            self.join(group)
        self.drops = False  # whether nft drops telegrams here
        self.seen: list[Seen] = []
        self.unread = b""  # of what the application prints
        self.daemon: subprocess.Popen[bytes] | None = None
        self.application: subprocess.Popen[bytes] | None = None

    # -- its link -------------------------------------------------------------

    def set_cable(self, state: str) -> None:
        """Sets its port of the bridge up or down. Down is a cable that is pulled: its own link stays up."""
        ip("link", "set", self.port, state)

    def set_link(self, state: str) -> None:
        """Sets its own link up or down."""
        ip("link", "set", LINK, state, namespace=self.namespace)

    def join(self, group: str) -> None:
        """Has its link join a group."""
        ip("address", "replace", f"{group}/32", "dev", LINK, "autojoin", namespace=self.namespace)

    def leave(self, group: str) -> None:
        """Has its link leave a group."""
        ip("address", "del", f"{group}/32", "dev", LINK, namespace=self.namespace)

    def drop_each_fourth(self) -> None:
        """Has nft drop each fourth telegram of the doors' status before its daemon. Raises Refuses without nft."""
        run(["nft", "-f", "-"], self.namespace, said=DROP)
        self.drops = True

    def dropped(self) -> int | None:
        """How many telegrams nft has dropped; None where it doesn't say."""
        found = re.search(r"packets ([0-9]+)", run(["nft", "list", "table", "inet", TABLE], self.namespace))
        return int(found[1]) if found else None

    def drop_nothing(self) -> None:
        """Has nft drop nothing any more."""
        if self.drops:
            run(["nft", "delete", "table", "inet", TABLE], self.namespace)
            self.drops = False

    # -- its processes --------------------------------------------------------

    def start_daemon(self, program: str) -> None:
        """Starts its daemon, with control sockets."""
        words = [program, "daemon", str(self.config), "--controls", str(self.controls)]
        self.daemon = self.start(words, "daemon", subprocess.DEVNULL)

    def start_application(self) -> None:
        """Starts its application. One that runs is ended, and what it has reported is forgotten."""
        self.end_application()
        self.seen, self.unread = [], b""
        script, *more = self.words
        words = [sys.executable, str(HERE / script), str(self.config), str(self.controls), *more]
        self.application = self.start(words, "application", subprocess.PIPE)

    def start(self, words: list[str], part: str, output: int) -> subprocess.Popen[bytes]:
        """Starts a process in its namespace."""
        with open(self.errors(part), "wb") as errors:
            return subprocess.Popen(
                [*inside(self.namespace), *words], pass_fds=[self.namespace],
                stdin=subprocess.DEVNULL, stdout=output, stderr=errors)

    def errors(self, part: str) -> pathlib.Path:
        """The file of what its daemon or its application prints on standard error."""
        return self.controls / f"{part}.errors"

    def end_application(self) -> None:
        """Ends its application, where it runs."""
        if self.application is not None:
            end(self.application)
            self.application = None

    def end(self) -> None:
        """Ends its application and its daemon."""
        self.end_application()
        if self.daemon is not None:
            end(self.daemon)
            self.daemon = None

    def look(self) -> None:
        """Raises Differs where one of its processes has ended by itself."""
        for part, process in (("daemon", self.daemon), ("application", self.application)):
            if process is not None and process.poll() is not None:
                said = self.errors(part).read_text(errors="replace").strip().splitlines()
                raise Differs(f"the {part} of {self.name} has ended: {said[-1] if said else process.returncode}")

    # -- what it sees ---------------------------------------------------------

    def hear(self) -> None:
        """Reads what its application has printed."""
        assert self.application is not None and self.application.stdout is not None
        *lines, self.unread = (self.unread + os.read(self.application.stdout.fileno(), 1 << 16)).split(b"\n")
        self.seen += [Seen(**json.loads(line)) for line in lines]

    def since(self, moment: float, *kinds: str) -> list[Seen]:
        """What its application has reported of these kinds since then."""
        return [it for it in self.seen if it.at >= moment and it.kind in kinds]

    def shows(self, moment: float, controller: int = 1) -> dict[int, str]:
        """The bytes that it has shown of a controller since then, by the counters of their telegrams."""
        return {it.counter: it.data for it in self.since(moment, "shows") if it.controller == controller}

    def leads(self) -> bool:
        """Whether its application leads the redundancy group, by its latest report."""
        said = self.since(0, "leads", "follows")
        return bool(said) and said[-1].kind == "leads"

    def is_up(self) -> bool:
        """Whether its daemon answers."""
        try:
            self.totals()
        except Nobody:
            return False
        return True

    def totals(self) -> Totals:
        """What its daemon has counted."""
        return Operator(f"{self.controls}/18100", answer_us=PATIENCE_US).totals()


def end(process: subprocess.Popen[bytes]) -> None:
    """Ends a process."""
    process.kill()
    process.wait()
    if process.stdout is not None:
        process.stdout.close()
