#!/usr/bin/env python3
"""What `trdpd daemon` says of ports that the system refuses: which ones, at which address, and why, word by word.

    bench/port_words.py [PROGRAM]                 default: crates/trdpd/out/trdpd (./run prove builds it)

For each case some ports are held by others, at 127.0.7.1 or at 127.0.7.2. Prints a line for each case whose words or
status differ, and then how many there were. The status is 0 where none differs.
"""
from __future__ import annotations

import contextlib
import os
import socket
import subprocess
import sys
import tempfile

TOP = os.path.dirname(os.path.dirname(os.path.abspath(__file__)))
HOME, KEPT = "127.0.7.1", "127.0.7.2"
PD, MD, OPERATOR, CONTROL, SPARE, LAST = 18721, 18722, 18723, 18724, 18725, 18726
CONFIG = """
[node]
address = "{home}"
control_address = "{kept}"
pd_port = {pd}
md_port = {md}
operator_port = {operator}
spare_control_ports = [{spare}, 0, {last}]
[[slot]]
callers = 1
control_port = {control}
"""
MEANT = """\
node {home}: process data at port {pd}, message data at port {md}
operator at {kept}:{operator}
slot 0 at {kept}:{control}: 0 publishers, 0 subscriptions, 0 requesters, 0 listeners, 1 callers, 0 repliers
slots that are added have, at {kept}, the ports {spare} 0 {last}
"""
USUAL = {"home": HOME, "kept": KEPT, "pd": PD, "md": MD, "operator": OPERATOR, "control": CONTROL, "spare": SPARE,
         "last": LAST}
Place = tuple[str, int]
# What others hold, what differs from the usual configuration, and the places that are refused, in the order in which
# they are bound.
CASES: list[tuple[list[Place], dict[str, str | int], list[Place]]] = [
    ([(HOME, PD)], {}, [(HOME, PD)]),
    ([(HOME, MD)], {}, [(HOME, MD)]),
    ([(KEPT, OPERATOR)], {}, [(KEPT, OPERATOR)]),
    ([(KEPT, CONTROL)], {}, [(KEPT, CONTROL)]),
    ([(KEPT, SPARE)], {}, [(KEPT, SPARE)]),
    ([(KEPT, LAST)], {}, [(KEPT, LAST)]),
    ([(KEPT, LAST), (HOME, PD), (KEPT, CONTROL)], {}, [(HOME, PD), (KEPT, CONTROL), (KEPT, LAST)]),
    # What is held at the other one of the two addresses hinders nothing.
    ([(KEPT, PD), (KEPT, MD), (HOME, OPERATOR), (HOME, CONTROL), (HOME, SPARE), (HOME, LAST), (KEPT, SPARE)], {},
     [(KEPT, SPARE)]),
]
# What others hold and is refused, what differs from the usual configuration, and the places that two keys name, with
# both keys.
TWICE: list[tuple[list[Place], dict[str, str | int], list[tuple[Place, str]]]] = [
    ([], {"md": PD}, [((HOME, PD), "pd_port and md_port")]),
    ([(HOME, PD)], {"md": PD}, [((HOME, PD), "pd_port and md_port")]),
    ([], {"kept": HOME, "control": MD, "last": SPARE},
     [((HOME, MD), "md_port and slot 0, control_port"),
      ((HOME, SPARE), "spare_control_ports[0] and spare_control_ports[2]")]),
    ([], {"operator": SPARE, "last": SPARE},
     [((KEPT, SPARE), "operator_port and spare_control_ports[0]"),
      ((KEPT, SPARE), "operator_port and spare_control_ports[2]")]),
    ([], {"home": "0.0.0.0", "operator": MD}, [((KEPT, MD), "md_port and operator_port")]),
]
EVERYWHERE = "warning: address is 0.0.0.0: its ports are at every interface, and a telegram counts as sent to 0.0.0.0\n"


def said(program: str, config: str) -> tuple[int, str, str]:
    """The status, what was written, and what is on the error stream."""
    with tempfile.NamedTemporaryFile("w", suffix=".toml") as file:
        file.write(config)
        file.flush()
        # A daemon whose ports are all bound goes on.
        words = ["timeout", "60", program, "daemon", file.name]
        ran = subprocess.run(words, stdin=subprocess.DEVNULL, capture_output=True, text=True)
        return ran.returncode, ran.stdout, ran.stderr


def differs(program: str, held: list[Place], other: dict[str, str | int], refused: list[Place],
            twice: list[tuple[Place, str]]) -> bool:
    """Whether something else is said where others hold these ports; prints it."""
    keys = {**USUAL, **other}
    wanted = MEANT.format(**keys) + (EVERYWHERE if keys["home"] == "0.0.0.0" else "")
    wanted += "".join(f"warning: {both} both name port {port} at {ip}\n" for (ip, port), both in twice) + "bind fault\n"
    wanted += "".join(f"port {ip}:{port}: Address already in use (os error 98)\n" for ip, port in refused)
    wanted += "".join(f"port {ip}:{port}: {both} both name it\n" for (ip, port), both in twice)
    with contextlib.ExitStack() as stack:
        for place in held:
            stack.enter_context(socket.socket(socket.AF_INET, socket.SOCK_DGRAM)).bind(place)
        found = said(program, CONFIG.format(**keys))
    if found != (4, "", wanted):
        print(f"differs: {held} {other}\n    wanted {(4, '', wanted)!r}\n    found  {found!r}")
    return found != (4, "", wanted)


def main(words: list[str]) -> int:
    program = words[0] if words else f"{TOP}/crates/trdpd/out/trdpd"
    cases: list[tuple[list[Place], dict[str, str | int], list[Place], list[tuple[Place, str]]]] = []
    cases += [(held, other, refused, []) for held, other, refused in CASES]
    cases += [(held, other, held, twice) for held, other, twice in TWICE]
    differ = sum(differs(program, *case) for case in cases)
    print(f"{len(cases)} configurations, {differ} differ")
    return 1 if differ else 0


if __name__ == "__main__":
    sys.exit(main(sys.argv[1:]))
