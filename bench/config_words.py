#!/usr/bin/env python3
"""What `trdpd check` says of configurations: what is wrong with each, and what their authors may not have meant.

    bench/config_words.py [PROGRAM]               default: crates/trdpd/out/trdpd (./run prove builds it)

Those that have faults are in bench/bad_configs.txt, but for some long ones. Prints a line for each configuration
whose words or status differ, and then how many there were. The status is 0 where none differs.
"""
from __future__ import annotations

import os
import re
import subprocess
import sys
import tempfile
from collections.abc import Iterator

TOP = os.path.dirname(os.path.dirname(os.path.abspath(__file__)))
NODE = '[node]\naddress = "10.0.0.1"\n'
ONE = "[[slot]]\ncallers = 1\n"
GOOD = NODE + ONE
# A status, what was written, and what is on the error stream.
Said = tuple[int, str, str]


def dataset(number: int, *elements: int | str) -> str:
    """A dataset with elements of these types."""
    return f"[[dataset]]\nid = {number}\nelement = [{', '.join('{ type = %s }' % it for it in elements)}]\n"


def chain(depth: int) -> str:
    """Datasets from 1000 on, of which each but the last is an element of the one before it."""
    return "".join(dataset(1000 + it, 1001 + it) for it in range(depth - 1)) + dataset(999 + depth, 8)


def limits(slots: int, datasets: int, elements: int, depth: int, size: int) -> str:
    """A file of that many slots with the largest numbers, that many datasets, elements of one, datasets in one another
    and bytes of one."""
    ports = ", ".join(["65535"] * 15)
    text = "[node]\naddress = '255.255.255.255'\npd_port = 65535\nmd_port = 65535\noperator_port = 65535\n"
    text += f"spare_control_ports = [{ports}]\n"
    text += ("[[slot]]\n" + "".join(f"{it} = 256\n" for it in KINDS) + "control_port = 65535\n") * slots
    text += "".join(dataset(1000 + it, 8) for it in range(datasets - depth - 2))
    text += dataset(100, 8) + "".join(dataset(100 + it, 99 + it) for it in range(1, depth))
    return text + dataset(4294967295, f"8, size = {size}") + dataset(31, *[8] * elements)


KINDS = ("publishers", "subscriptions", "requesters", "listeners", "callers", "repliers")
TYPES = ("BOOL8", "BITSET8", "CHAR8", "UTF16", "INT8", "INT16", "INT32", "INT64", "UINT8", "UINT16", "UINT32", "UINT64",
         "TIMEDATE32", "TIMEDATE48", "TIMEDATE64")
DEEP = "datasets nest deeper than 5 in it, or in a circle"
GROUPS = [f"239.192.0.{it}" for it in range(33)]
JOINED = ["224.0.0.0", "239.255.255.255", *GROUPS[:30]]
JOINS = "".join(f"group {it}: a link joins it by `ip address add {it}/32 dev LINK autojoin`\n" for it in JOINED)
# Long configurations that are rejected: what is said of each.
FAULTS: list[tuple[str, ...]] = [
    (NODE + ONE * 17, "TooMany", "line 35, the file's root: slot has 17 members: 16 are the most"),
    (NODE + f"groups = {GROUPS}\n" + ONE, "TooMany", "line 3, node: groups has 33 members: 32 are the most"),
    (NODE + f"groups = {[*GROUPS, GROUPS[0]]}\n" + ONE, "TooMany",
     "line 3, node: groups has 34 members: 32 are the most"),
    (GOOD + dataset(1001, *[8] * 257), "TooMany", "line 7, dataset 1001: element has 257 members: 256 are the most"),
    (GOOD + chain(6), "TooDeep", f"line 5, dataset 1000: {DEEP}"),
    (GOOD + dataset(1001, 8) + dataset(1002, "11, size = 8174"), "TooBig",
     "line 8, dataset 1002: its zero value takes 65392 bytes: 65388 are the most"),
    (limits(17, 256, 256, 5, 65388), "TooMany", "line 135, the file's root: slot has 17 members: 16 are the most"),
    (limits(16, 257, 256, 5, 65388), "TooMany", "line 903, the file's root: dataset has 257 members: 256 are the most"),
    (limits(16, 256, 257, 5, 65388), "TooMany", "line 902, dataset 31: element has 257 members: 256 are the most"),
    (limits(16, 256, 256, 6, 65388), "TooDeep", f"line 894, dataset 105: {DEEP}"),
    (limits(16, 256, 256, 5, 65389), "TooBig",
     "line 897, dataset 4294967295: its zero value takes 65389 bytes: 65388 are the most"),
    (GOOD + dataset(1001, *(f"'{it.lower()}'" for it in TYPES)), "BadId",
     *(f"line 7, dataset 1001, element {it}: type = \"{name.lower()}\": {name} is wanted"
       for it, name in enumerate(TYPES))),
    (GOOD + "".join(dataset(1000 + it, *["'uint8'"] * 256) for it in range(8)), "BadId",
     *(f"line {7 + 3 * (it // 256)}, dataset {1000 + it // 256}, element {it % 256}: type = \"uint8\": UINT8 is wanted"
       for it in range(2048))),
]

# The short forms in bench/bad_configs.txt, and what they mean.
NAMES = {
    "$NODE": 'node = { address = "10.0.0.1" }',
    "$SLOT": "slot = [{ callers = 1 }]",
    "$TYPES": f"a type is {', '.join(TYPES)}, the number of one of these, or the identifier of a dataset, "
              "31 to 4294967295",
}

# What is said of configurations that are taken.
QUOTAS = "0 publishers, 0 subscriptions, 0 requesters, 0 listeners, 1 callers, 0 repliers"
MEANT = f"node 10.0.0.1: process data at port 17224, message data at port 17225\nslot 0, no control port: {QUOTAS}\n"
NO_OPERATOR = ("warning: the node has no operator_port: nobody can make it lead a redundancy group, set its "
               "topology counters or add a slot\n")
NO_CALLS = "warning: slot {} has no control_port: no application can use it\n"
# What is said of a node of one slot without any control port.
BARE = NO_OPERATOR + NO_CALLS.format(0)
REACHED = ("warning: the network reaches the control ports at {}: a stranger's datagram, an empty one too, takes a "
           "slot's indications, and his lines are its calls, of which `reset` ends all its objects; "
           "control_address = \"127.0.0.1\" keeps him out\n")
NAME_WISH = "a text is wanted, not empty and without control characters"
GROUP = "what is sent to the group alone comes in, and what goes out bears another address\n"
PORTS = ("slot = [{ control_port = 18000 }, { publishers = 256, repliers = 7 }]\n"
         "node = { operator_port = 65535, md_port = 2, pd_port = 1, "
         "address = '255.254.0.9', spare_control_ports = [0, 18002, 18002], control_address = '127.0.0.1' }\n")
OTHERS = ["md_port", "operator_port", *(f"slot {it}, control_port" for it in range(16)),
          *(f"spare_control_ports[{it}]" for it in range(15))]
SPARE = [*range(18001, 18015), 65535]
WORDS = [
    (GOOD, MEANT + BARE),
    (open(f"{TOP}/rows/node.toml").read(),
     "node 10.0.0.1: process data at port 17224, message data at port 17225\n"
     + "".join(f"slot {it}, no control port: 4 publishers, 4 subscriptions, 1 requesters, 2 listeners, 2 callers, "
               "1 repliers\n" for it in (0, 1))
     + "dataset 1001: elements 2, bytes 1 and more\ndataset 1002: elements 3, bytes 9 and more\n"
     + BARE + NO_CALLS.format(1)),
    (PORTS,
     "node 255.254.0.9: process data at port 1, message data at port 2\noperator at 127.0.0.1:65535\n"
     f"slot 0 at 127.0.0.1:18000: {QUOTAS.replace('1 callers', '0 callers')}\n"
     "slot 1, no control port: 256 publishers, 0 subscriptions, 0 requesters, 0 listeners, 0 callers, 7 repliers\n"
     "slots that are added have, at 127.0.0.1, the ports 0 18002 18002\n"
     "warning: spare_control_ports[1] and spare_control_ports[2] both name port 18002 at 127.0.0.1\n"
     "warning: slot 0 can hold nothing: each of its quotas is 0\n" + NO_CALLS.format(1)),
    ("slot = [{ callers = 1 }]\nnode = { address = '10.0.0.1', control_address = '127.0.0.1', "
     f"spare_control_ports = {SPARE} }}\n",
     MEANT + f"slots that are added have, at 127.0.0.1, the ports {' '.join(map(str, SPARE))}\n" + BARE),
    (NODE + f"groups = {JOINED}\nttl = 255\n" + ONE, MEANT.replace("\nslot", f"\n{JOINS}slot") + BARE),
    (GOOD + "[[telegram]]\ncom_id = 100\ndataset = 0\n", MEANT + BARE),
    (GOOD + dataset(1001, 8)
     + "[[telegram]]\ncom_id = 100\ndataset = 1001\n[[telegram]]\ncom_id = 101\ndataset = 1002\n"
     "[[telegram]]\ndataset = -1\ncom_id = 100\n[[telegram]]\ncom_id = 'x'\ndataset = '1001'\n",
     MEANT + "dataset 1001: elements 1, bytes 1\n"
     "warning: line 13, telegram 1: dataset = 1002: no dataset has this identifier\n"
     "warning: line 16, telegram 2: com_id = 100: an earlier telegram has the same\n"
     "warning: line 15, telegram 2: dataset = -1: no dataset has this identifier\n"
     "warning: line 19, telegram 3: dataset = \"1001\": no dataset has this identifier\n" + BARE),
    (GOOD + "[telegram]\ncom_id = 100\ndataset = 0\n",
     MEANT + "warning: line 5, the file's root: telegram = { com_id = 100, dataset = 0 }: [[telegram]] is wanted, with "
     "two brackets\n" + BARE),
    (NODE.replace("10.0.0.1", "127.0.0.1")
     + "md_port = 17224\noperator_port = 18000\nspare_control_ports = [0, 18001, 17225, 18000]\n"
     + ONE * 2 + "control_port = 18000\n" + ONE + "control_port = 0\n",
     MEANT.splitlines()[0].replace("10.0.0.1", "127.0.0.1").replace("17225", "17224")
     + f"\noperator at 127.0.0.1:18000\nslot 0, no control port: {QUOTAS}\nslot 1 at 127.0.0.1:18000: {QUOTAS}\n"
     f"slot 2, no control port: {QUOTAS}\n"
     "slots that are added have, at 127.0.0.1, the ports 0 18001 17225 18000\n"
     "warning: pd_port and md_port both name port 17224 at 127.0.0.1\n"
     "warning: operator_port and slot 1, control_port both name port 18000 at 127.0.0.1\n"
     "warning: operator_port and spare_control_ports[3] both name port 18000 at 127.0.0.1\n"
     + NO_CALLS.format(0) + NO_CALLS.format(2)),
    (NODE + "control_address = '127.0.0.1'\n" + ONE + "control_port = 17224\n",
     MEANT.replace(", no control port", " at 127.0.0.1:17224") + NO_OPERATOR),
    (NODE.replace("10.0.0.1", "0.0.0.0") + "control_address = '127.0.0.1'\n" + ONE + "control_port = 17224\n",
     MEANT.replace("10.0.0.1", "0.0.0.0").replace(", no control port", " at 127.0.0.1:17224")
     + "warning: address is 0.0.0.0: its ports are at every interface, and a telegram counts as sent to 0.0.0.0\n"
     + NO_OPERATOR + "warning: pd_port and slot 0, control_port both name port 17224 at 127.0.0.1\n"),
    (GOOD + dataset(1001, *map(repr, TYPES)), MEANT + "dataset 1001: elements 15, bytes 53\n" + BARE),
    (GOOD + chain(5), MEANT + "".join(f"dataset {it}: elements 1, bytes 1\n" for it in range(1000, 1005)) + BARE),
    (GOOD + dataset(1001, 8, "9, size = 0", 15), MEANT + "dataset 1001: elements 3, bytes 7 and more\n" + BARE),
    (GOOD + dataset(1001, "11, size = 180"),
     MEANT + "dataset 1001: elements 1, bytes 1440\n" + BARE
     + "warning: no telegram of process data carries dataset 1001: it has 1440 bytes or more, and 1432 fit\n"),
    (NODE + "operator_port = 18100\nspare_control_ports = [18001, 0]\ncontrol_address = '127.0.0.2'\n" + ONE
     + "control_port = 18000\n",
     "node 10.0.0.1: process data at port 17224, message data at port 17225\noperator at 127.0.0.2:18100\n"
     f"slot 0 at 127.0.0.2:18000: {QUOTAS}\nslots that are added have, at 127.0.0.2, the ports 18001 0\n"),
    (GOOD + "control_port = 18000\n",
     MEANT.replace(", no control port", " at 10.0.0.1:18000") + REACHED.format("10.0.0.1") + NO_OPERATOR),
    (NODE + "spare_control_ports = [0, 18001]\n" + ONE,
     MEANT + "slots that are added have, at 10.0.0.1, the ports 0 18001\n" + REACHED.format("10.0.0.1") + BARE),
    (NODE.replace("10.0.0.1", "0.0.0.0") + ONE,
     MEANT.replace("10.0.0.1", "0.0.0.0")
     + "warning: address is 0.0.0.0: its ports are at every interface, and a telegram counts as sent to 0.0.0.0\n"
     + BARE),
    # Beside every interface the system refuses the ports of a group.
    (NODE.replace("10.0.0.1", "0.0.0.0") + 'groups = ["239.192.0.1"]\n' + ONE,
     MEANT.replace("10.0.0.1", "0.0.0.0").replace(
         "\nslot", "\ngroup 239.192.0.1: a link joins it by `ip address add 239.192.0.1/32 dev LINK autojoin`\nslot")
     + "warning: address is 0.0.0.0: its ports are at every interface, and a telegram counts as sent to 0.0.0.0\n"
     + NO_OPERATOR + "warning: pd_port and groups[0] both name port 17224 at 239.192.0.1\n"
     "warning: md_port and groups[0] both name port 17225 at 239.192.0.1\n" + NO_CALLS.format(0)),
    (NODE.replace("10.0.0.1", "239.1.2.3") + ONE,
     MEANT.replace("10.0.0.1", "239.1.2.3") + "warning: address is the group 239.1.2.3: " + GROUP + BARE),
    (NODE.replace("10.0.0.1", "255.255.255.255") + ONE,
     MEANT.replace("10.0.0.1", "255.255.255.255")
     + "warning: address is the broadcast 255.255.255.255: " + GROUP.replace("the group alone", "all alone") + BARE),
    (limits(16, 256, 256, 5, 65388),
     "node 255.255.255.255: process data at port 65535, message data at port 65535\noperator at 255.255.255.255:65535\n"
     + "".join(f"slot {slot} at 255.255.255.255:65535: {', '.join(f'256 {it}' for it in KINDS)}\n"
               for slot in range(16))
     + f"slots that are added have, at 255.255.255.255, the ports {' '.join(['65535'] * 15)}\n"
     + "".join(f"dataset {it}: elements 1, bytes 1\n" for it in (*range(1000, 1249), *range(100, 105)))
     + "dataset 4294967295: elements 1, bytes 65388\ndataset 31: elements 256, bytes 256\n"
     "warning: address is the broadcast 255.255.255.255: " + GROUP.replace("the group alone", "all alone")
     + REACHED.format("255.255.255.255")
     + "".join(f"warning: pd_port and {it} both name port 65535 at 255.255.255.255\n" for it in OTHERS)
     + "warning: no telegram of process data carries dataset 4294967295: it has 65388 bytes or more, and 1432 fit\n"),
    ("[nodes]\n" + NODE + "operater_port = 1\n" + ONE + "publisher = 1\n[[dataset]]\nid = 1001\nunit = 'V'\n"
     "element = [{ type = 8, count = 2 }]\n[[telegram]]\ncom_id = 100\ndataset = 0\ncycle = 1\n",
     MEANT + "dataset 1001: elements 1, bytes 1\nwarning: the file's root: the key nodes means nothing\n"
     "warning: node: the key operater_port means nothing\nwarning: slot 0: the key publisher means nothing\n"
     "warning: dataset 1001: the key unit means nothing\n"
     "warning: dataset 1001, element 0: the key count means nothing\n"
     "warning: telegram 0: the key cycle means nothing\n" + BARE),
    # What only the clients read, and the node ignores.
    (NODE + ONE + "name = 'doors'\n[[dataset]]\nid = 1001\nname = 'status'\nelement = [\n"
     "  { type = 'UINT32', as = 'REAL32', name = 'speed', unit = 'km/h', scale = -0.5, offset = 3 },\n"
     "  { type = 11, size = 2, as = 'REAL64', name = 'Speed', unit = '', scale = 2, offset = -1e3 },\n"
     "  { type = 'BITSET8', as = 'ANTIVALENT8', name = '\u00fc' }, { type = 1, as = 'ANTIVALENT8' },\n"
     "  { type = 'UINT32' }, { type = 10, size = 0, as = 'REAL32' },\n]\n[[dataset]]\nid = 1002\n"
     "element = [{ type = 8, name = 'speed' }]\n[[telegram]]\ncom_id = 100\ndataset = 1001\nname = 'doors'\n"
     "cycle_us = 0\ntime_us = 4294967295\nreply_us = 1\nconfirm_us = 2\n",
     MEANT + "dataset 1001: elements 6, bytes 26 and more\ndataset 1002: elements 1, bytes 1\n" + BARE),
    (NODE + ONE + "name = ''\n[[dataset]]\nid = 1001\nname = 5\nelement = [\n"
     "  { type = 8, name = 'a', unit = 1, scale = 0, offset = 'x' },\n"
     "  { type = 8, name = 'a', scale = -0.0, offset = inf },\n"
     "  { type = 8, name = \"b\\u0007\", unit = \"\\u007F\", scale = nan, offset = true },\n"
     "  { type = 'INT32', as = 'REAL32' }, { type = 10, size = 2, as = 'REAL64' },\n"
     "  { type = 'BOOL8', as = 'ANTIVALENT8' }, { type = 11, as = 'UINT64' }, { type = 11, as = 1 },\n"
     "  { type = 'UINT32', as = 'REAL32' }, { type = 8, size = 0 },\n]\n"
     "[[telegram]]\ncom_id = 100\ndataset = 1001\nname = ''\n"
     "cycle_us = -1\ntime_us = 4294967296\nreply_us = '5'\nconfirm_us = 1.0\n",
     MEANT + "dataset 1001: elements 10, bytes 36 and more\n"
     f"warning: line 5, slot 0: name = \"\": {NAME_WISH}\nwarning: line 8, dataset 1001: name = 5: {NAME_WISH}\n"
     + "".join(f"warning: line 9, dataset 1001, element {it}\n" for it in (
         "0: unit = 1: a text without control characters is wanted",
         "0: scale = 0: a finite number other than 0 is wanted", "0: offset = \"x\": a finite number is wanted",
         "1: scale = -0.0: a finite number other than 0 is wanted", "1: offset = inf: a finite number is wanted",
         "1: name = \"a\": an earlier element has the same", f"2: name = \"b\\u0007\": {NAME_WISH}",
         "2: unit = \"\\u007F\": a text without control characters is wanted",
         "2: scale = nan: a finite number other than 0 is wanted", "2: offset = true: a finite number is wanted",
         "3: as = \"REAL32\": write type = \"UINT32\", as = \"REAL32\"",
         "4: as = \"REAL64\": write type = \"UINT64\", as = \"REAL64\"",
         "5: as = \"ANTIVALENT8\": write type = \"BITSET8\", as = \"ANTIVALENT8\"",
         "6: as = \"UINT64\": REAL32, REAL64 or ANTIVALENT8 is wanted",
         "7: as = 1: REAL32, REAL64 or ANTIVALENT8 is wanted",
         "8: as = \"REAL32\": the count of an array stays a whole number"))
     + f"warning: line 20, telegram 0: name = \"\": {NAME_WISH}\n"
     "warning: line 21, telegram 0: cycle_us = -1: a number of 0 to 4294967295\n"
     "warning: line 22, telegram 0: time_us = 4294967296: a number of 0 to 4294967295\n"
     "warning: line 23, telegram 0: reply_us = \"5\": a number of 0 to 4294967295\n"
     "warning: line 24, telegram 0: confirm_us = 1.0: a number of 0 to 4294967295\n" + BARE),
]


def bad_configs() -> Iterator[tuple[bytes, str]]:
    """The configurations of bench/bad_configs.txt, and what is said of each."""
    with open(f"{TOP}/bench/bad_configs.txt", encoding="utf-8") as file:
        _, *cases = file.read().split("\n= ")
    for case in cases:
        lines = case.splitlines()[1:]
        config = "".join(it[2:] + "\n" for it in lines if it.startswith("|"))
        told = "".join(it[2:] + "\n" for it in lines if it.startswith("! "))
        for name, text in NAMES.items():
            config, told = config.replace(name, text), told.replace(name, text)
        yield re.sub(rb"\\x([0-9a-f]{2})", lambda it: bytes([int(it[1], 16)]), config.encode()), told


def said(program: str, config: str | bytes) -> Said:
    """The status, what was written, and what is on the error stream."""
    with tempfile.NamedTemporaryFile("wb", suffix=".toml") as file:
        file.write(config if isinstance(config, bytes) else config.encode())
        file.flush()
        ran = subprocess.run([program, "check", file.name], capture_output=True, text=True, timeout=60)
        return ran.returncode, ran.stdout, ran.stderr


def main(words: list[str]) -> int:
    program = words[0] if words else f"{TOP}/crates/trdpd/out/trdpd"
    cases: list[tuple[str | bytes, Said]] = [(config, (1, "", told)) for config, told in bad_configs()]
    cases += [(config, (1, "", "\n".join([f"config fault {fault}", *places, ""]))) for config, fault, *places in FAULTS]
    cases += [(config, (0, text, "")) for config, text in WORDS]
    differ = 0
    for config, wanted in cases:
        found = said(program, config)
        if found != wanted:
            differ += 1
            print(f"differs: {config!r}\n    wanted {wanted!r}\n    found  {found!r}")
    print(f"{len(cases)} configurations, {differ} differ")
    return 1 if differ else 0


if __name__ == "__main__":
    sys.exit(main(sys.argv[1:]))
