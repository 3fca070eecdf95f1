"""docs/CLIENTS.md, docs/PYTHON.md and docs/C.md as they are printed: their files are written, their commands typed, and
what they print is compared.

The pages' nodes are at 127.0.0.1 and 127.0.0.2; here they have addresses of their own, and the pages are read with
these. What is typed and what is printed is read by pages.py; the numbers that count aren't compared.
"""
from __future__ import annotations

import os
import re
import shutil
import signal
import subprocess
import unittest

from pages import Block, Folder, Step, blocks, pattern
from testing import TOP, has_groups, wait_until

PAGES = ("CLIENTS", "PYTHON", "C")
ADDRESSES = {"127.0.0.1": "127.0.8.30", "127.0.0.2": "127.0.8.31", "127.0.0.3": "127.0.8.34", "127.0.0.4": "127.0.8.35",
             "127.0.0.5": "127.0.8.36", "0x7f000002": "0x7f00081f", "0x7f000004": "0x7f000823",
             "0x7f000005": "0x7f000824", "127.0.9.": "127.0.8.", "239.192.0.1": "239.192.8.34"}
# How long a client waits for an answer: as it is written, and how it is here, where a daemon may stand still.
WAITS = [(r'(Slot(?:\.look)?\("[\w/]+\.toml", 0)', r"\1, answer_us=10_000_000"),
         (r"\.timeout = 200\b", ".timeout = 10000")]
COUNTS = re.compile(r"(?<=counter=)\d+")


def here(text: str) -> str:
    """A text with the addresses that this test has."""
    for address, own in ADDRESSES.items():
        text = re.sub(rf"\b{re.escape(address)}(?!\d)" if address[-1] != "." else re.escape(address), own, text)
    return text


def patient(text: str) -> str:
    """A program, whose client waits here for as long as this test has it wait."""
    for written, own in WAITS:
        text = re.sub(written, own, text)
    return text


class Tests(unittest.TestCase):
    """The table of tests."""

    def test_each_folder_is_there_once(self) -> None:
        page = (TOP / "CONTRIBUTING.md").read_text()
        table = page.partition("\n| Tests of |")[2].partition("\n\n")[0]
        there = {str(it.parent.relative_to(TOP)) for it in (TOP / "clients/python").rglob("test_*.py")}
        self.assertEqual(sorted(re.findall(r"`(clients/python/tests/\w+)`", table)), sorted(there))


class Pages(unittest.TestCase):
    """All that the pages say to type, in the order of a reader of all three."""

    def setUp(self) -> None:
        self.folder = Folder(["clients/python", "wireshark"])
        self.addCleanup(self.folder.close)
        self.top = self.folder.path
        for name in ("examples/control", "examples/import", "clients/c"):
            (self.top / name).mkdir(parents=True)
            for file in (TOP / name).iterdir():
                if file.suffix in (".toml", ".xml", ".c", ".h"):
                    (self.top / name / file.name).write_text(patient(here(file.read_text())))
        self.blocks = [it for page in PAGES for it in blocks(here((TOP / f"docs/{page}.md").read_text()))]

    def block(self, beginning: str) -> Block:
        """The one block that begins so."""
        found = [it for it in self.blocks if it.code.startswith(beginning)]
        self.assertEqual(len(found), 1, beginning)
        return found[0]

    def steps(self, beginning: str) -> list[Step]:
        """What is typed in the one block that begins so."""
        return self.block(beginning).steps()

    def begin(self, command: str) -> subprocess.Popen[str]:
        """Types a command, which goes on beside this. The process is its program's own: no shell ends before that."""
        return self.folder.begin(re.sub(r"^(?=\w+=)", "env ", command.removesuffix("&").strip()))

    def prints(self, step: Step) -> None:
        """A command prints what the page says."""
        said = self.folder.type(step.text)
        self.assertEqual([COUNTS.sub("N", it) for it in said], [COUNTS.sub("N", it) for it in step.shown], step.typed)

    def prints_at_last(self, step: Step) -> None:
        """The same, where what is shown comes in time: a machine that halts for half a second has it be silent."""
        wanted = [COUNTS.sub("N", it) for it in step.shown]
        wait_until(lambda: [COUNTS.sub("N", it) for it in self.folder.type(step.text)] == wanted, 60)

    def begins(self, step: Step) -> subprocess.Popen[str]:
        """A command that goes on prints what the page says."""
        process = self.begin(step.text)
        assert process.stdout is not None
        self.assertEqual([process.stdout.readline() for _ in step.shown], [f"{it}\n" for it in step.shown])
        return process

    def start_daemons(self, commands: str) -> None:
        """Types a line that starts daemons, and waits until they have their ports."""
        for command in commands.removesuffix("&").split(" & "):
            process = self.begin(command)
            assert process.stdout is not None
            while (said := process.stdout.readline()) and not said.startswith("dataset "):
                pass
            self.assertTrue(self.folder.await_ports(process, command), command)

    def write(self, name: str, beginning: str) -> None:
        """Writes a file of a page: the block that begins so."""
        (self.top / name).write_text(patient(self.block(beginning).code))

    def test_all(self) -> None:
        for step in self.steps("$ cp examples/control/door.toml doors.toml"):
            if "daemon" in step.text:
                self.start_daemons(step.text)
            else:
                self.prints(step)
        self.by_name()
        self.programs()
        self.look()
        self.programs_again()
        doors = self.top / "doors.toml"
        doors.write_text(doors.read_text() + self.block("[[telegram]]").code)
        self.tools()
        self.doors()
        self.request()
        self.paths()
        self.controls()
        self.imports()

    def by_name(self) -> None:
        """Values by names: in Python, in C, and as trdp_dump shows them."""
        self.write("car.toml", here('[node]\naddress = "127.0.0.4"\n'))
        self.write("car.py", "from car_values import car\n")
        self.write("car.c", '#include "car.h"\n')
        daemon, module, named = self.steps("$ ./run daemon car.toml &")
        self.start_daemons(daemon.text)
        self.prints(module)
        self.prints_at_last(named)
        header, compiling, dump, sent = self.steps("$ clients/python/trdp_structs.py car.toml")
        self.prints(header)
        self.prints(compiling)
        self.dumps(dump, sent)

    def programs(self) -> None:
        """The two programs in Python, at their first run, and one that looks."""
        self.write("doors.py", 'from trdp_slot import Slot\n\nwith Slot("doors.toml", 0)')
        self.write("display.py", "from trdp_slot import Alive, Silent, Slot\n")
        self.programs_again()
        self.write("look.py", "from trdp_slot import Slot\n\nwith Slot.look(")
        looking, = self.steps("$ PYTHONPATH=clients/python python3 look.py")
        self.prints_at_last(looking)

    def programs_again(self) -> None:
        """The first two, at this run or at their second one."""
        doors, display = self.steps("$ PYTHONPATH=clients/python python3 doors.py")
        self.prints(doors)
        self.shows(display)

    def shows(self, display: Step) -> None:
        """The display shows what the page says, and is ended."""
        process = self.begin(display.text)
        assert process.stdout is not None
        said: list[str] = []
        while len(said) < len(display.shown):
            line = process.stdout.readline()
            # A machine that halts for half a second has the display say so.
            if not re.match("no word of the doors|the doors are back|Value.state='(Silent|Never)'", line):
                said.append(COUNTS.sub("N", line.rstrip("\n")))
        self.assertEqual(said, [COUNTS.sub("N", it) for it in display.shown])
        os.killpg(process.pid, signal.SIGKILL)

    def look(self) -> None:
        """The shortest program in C."""
        self.write("look.c", '#include "trdp_slot.h"\n#include <stdio.h>\n\nint main')
        compiling, looking = self.steps("$ gcc -std=c99 -Wall -Wextra -O2 -I clients/c -o look look.c")
        self.prints(compiling)
        self.prints_at_last(looking)

    def tools(self) -> None:
        """trdp_dump beside the display's daemon, trdp_send, trdp_lua, and tshark."""
        taken, beside = self.steps(here("$ clients/python/trdp_dump.py 127.0.0.2"))
        self.prints(taken)
        if os.geteuid() == 0:
            self.prints(beside)
        for step in self.steps("$ clients/python/trdp_send.py"):
            self.prints(step)
        if has_groups():
            self.groups()
        self.views()
        self.names()
        table, shown = self.steps("$ clients/python/trdp_lua.py doors.toml")
        self.prints(table)
        self.assertIn("[2101] = 5002", (self.top / "datasets.lua").read_text())
        if shutil.which("tshark") and os.geteuid() == 0:
            self.assertIn("[4, [0, 0, 0, 0], 0]", self.folder.type(shown.text)[-1])

    def views(self) -> None:
        """trdp-view prints the address of its page, and what is in the capture of the dump."""
        served, printed = (self.steps(f"$ python3 clients/python/trdp_view {it}")[0]
                           for it in (here("127.0.0.3"), "doors.pcapng"))
        process = self.begin(served.text)
        assert process.stdout is not None
        address = "http://127.0.0.1:[0-9]+/[A-Za-z0-9_-]{22}/"
        for line in (process.stdout.readline().strip(), served.shown[0].replace("127.0.8.30", "127.0.0.1")):
            self.assertRegex(line, f"^{address}$")
        os.killpg(process.pid, signal.SIGINT)
        self.assertEqual(process.wait(20), 0)
        if os.geteuid() == 0:
            self.prints(printed)

    def groups(self) -> None:
        """A dump in a group, and a telegram to that."""
        self.dumps(*self.steps(here("$ clients/python/trdp_dump.py 127.0.0.3 --group")))

    def names(self) -> None:
        """A value by names and units."""
        self.write("drive.toml", "[[dataset]]\nid = 6001\n")
        self.dumps(*self.steps(here("$ clients/python/trdp_dump.py 127.0.0.3 --toml")))
        table, shown = self.steps("$ clients/python/trdp_lua.py drive.toml")
        self.prints(table)
        if shutil.which("tshark"):
            said = self.folder.type(shown.text)
            self.assertRegex("".join(f"{it}\n" for it in said), pattern(shown.shown))

    def dumps(self, dump: Step, sent: Step) -> None:
        """A dump prints what the page shows below the command that sends it."""
        process = self.begins(dump)
        self.assertEqual(self.folder.type(sent.text), [])
        said = process.communicate(timeout=60)[0].splitlines()
        self.assertEqual([COUNTS.sub("N", it) for it in said], [COUNTS.sub("N", it) for it in sent.shown])

    def doors(self) -> None:
        """Two doors in C see each other."""
        daemons, compiling, doors = self.steps("$ ./run daemon clients/c/door.toml")
        self.start_daemons(daemons.text)
        self.prints(compiling)
        for process in [self.begin(command) for command in doors.text.split(" & ")]:
            assert process.stdout is not None
            said: list[str] = []
            while "Valid: 4 doors, 7 bytes\n" not in said[-1:]:
                said.append(process.stdout.readline())
                self.assertNotEqual(said[-1], "", said)

    def request(self) -> None:
        """A request and its reply in C, twice."""
        self.write("lock.c", '#include "trdp_slot.h"\n#include <stdio.h>\n\nstruct side')
        steps = self.steps("$ gcc -std=c99 -pedantic -Wall -Wextra -Werror -O2 -I clients/c -o lock lock.c")
        for step in (*steps, steps[-1]):
            self.prints(step)

    def paths(self) -> None:
        """The programs in Python at a control socket, of which each is the first one once, and the second one once."""
        self.folder.end_all()
        made, daemon = self.steps("$ mkdir -m 700 paths")
        self.prints(made)
        self.start_daemons(daemon.text)
        self.write("stays.py", "from trdp_slot import Restarted, Slot\n")
        self.write("tasks.py", "import asyncio\n")
        stays, tasks = self.steps("$ PYTHONPATH=clients/python python3 stays.py &")
        turned = tasks._replace(shown=stays.shown), stays._replace(text=stays.text[:-1], shown=tasks.shown)
        for first, second in ((stays, tasks), turned):
            process = self.begins(first)
            self.assertEqual(self.folder.type(second.text)[-1:], second.shown)
            os.killpg(process.pid, signal.SIGKILL)
            process.wait(20)

    def controls(self) -> None:
        """A program at a control socket is there first. Others say so, whether they are closed before they have sent a
        line or after that."""
        self.folder.end_all()
        made, daemon = self.steps("$ mkdir -m 700 sockets")
        self.prints(made)
        self.start_daemons(daemon.text)
        self.write("lines.py", "import contextlib\nimport socket\n")
        first, again = self.steps("$ python3 lines.py &")
        self.begins(first)
        for _ in range(20):
            process = self.begin(again.text)
            self.assertEqual((process.communicate(timeout=60)[0].splitlines(), process.returncode), (again.shown, 1))

    def imports(self) -> None:
        """Two XML files are imported, and a value goes from one node to the other."""
        self.folder.end_all()
        listing, daemons = self.steps("$ grep -h '^[ps]'")
        for step in (*self.steps("$ clients/python/trdp_import.py"), listing):
            self.prints(step)
        self.start_daemons(daemons.text)
        self.write("imported.py", 'from trdp_slot import Slot\n\nwith (Slot("doors/node.toml"')
        shown, = self.steps("$ PYTHONPATH=clients/python python3 imported.py")
        self.prints_at_last(shown)
