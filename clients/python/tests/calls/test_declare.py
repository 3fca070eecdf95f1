"""`Slot.declare`, at a port that is made up, without a daemon: the objects of a file, by their names."""
from __future__ import annotations

import asyncio
import pathlib
import tempfile

from made_node import Case
from trdp_slot import AsyncSlot, ConfigFault, Refused, Restarted

CALLS = {
    "status": "publish 2101 5002 100000 3 0 0 10.0.0.2:17224",
    "status_2": "subscribe 2101 5003 10.0.0.2 10.0.0.4 10.0.0.1 0 0 500000 keep",
    "2-pull!": "openpull 100 200 10.0.0.7 0 0 10.0.0.3:17224",
    "any": "listen any 0.0.0.0 0.0.0.0 0.0.0.0 646f6f72 17 4",
}
TEXT = ("# What comes.\n\n# a\n# publish 1 0 0 0 0 0 10.0.0.2:1\n"
        + "".join(f"# {name}\n{line}\r\n" for name, line in CALLS.items()) + "# the end\n")


class Files(Case):
    """Files of calls."""

    def setUp(self) -> None:
        super().setUp()
        self.path = pathlib.Path(self.enterContext(tempfile.TemporaryDirectory())) / "doors.lines"

    def test_objects(self) -> None:
        """The objects are made in their order, and made again after a restart."""
        self.path.write_text(TEXT)
        slot = self.client(restore=True)
        made = slot.declare(self.path)
        self.assertEqual(self.calls(), list(CALLS.values()))
        self.assertEqual([(name, it.kind, it.number, it.dataset) for name, it in made.items()], [
            ("status", "publisher", 1, 5002), ("status_2", "subscription", 2, 5003), ("2-pull!", "requester", 3, 0),
            ("any", "listener", 4, 0)])
        slot.put(made["status"], b"\x07")
        self.node.start_anew()
        self.assertFalse(slot.check())
        self.assertEqual(slot.next_indication(0), Restarted(tuple(made.values()), ()))
        self.assertEqual((list(self.node.made.values()), self.node.put), (list(CALLS.values()), {"1": "07"}))

    def test_tasks(self) -> None:
        """A task of asyncio awaits the objects."""
        self.path.write_text(TEXT)

        async def act() -> list[str]:
            async with AsyncSlot(self.client()) as slot:
                return list(await slot.declare(str(self.path)))

        self.assertEqual(asyncio.run(act()), list(CALLS))

    def test_a_refused_call(self) -> None:
        """If a call is refused, those before it are ended."""
        self.path.write_text(TEXT)
        slot = self.asked()
        self.say = lambda line: ("0 refused Quota",) if line.startswith("listen") else self.node.answer(line)
        with self.assertRaises(Refused) as caught:
            slot.declare(self.path)
        self.assertEqual((caught.exception.name, caught.exception.line), ("Quota", CALLS["any"]))
        self.assertEqual((self.node.made, slot.next_indication(0)), ({}, None))
        self.assertEqual(self.calls(), [*CALLS.values(), "unpublish 1", "unsubscribe 2", "closepull 3"])

    def test_files_that_are_none(self) -> None:
        """What is no such file is refused with its line, and nothing is sent."""
        slot = self.asked()
        forms = "none of publish, subscribe, openpull, listen"
        for text, fault in [
            ("listen any", "line 1: there is no remark `# NAME` right before the call"),
            ("# a\n\nlisten any", "line 3: there is no remark `# NAME` right before the call"),
            ("# a b\nlisten any", "line 2: there is no remark `# NAME` right before the call"),
            ("#a\nlisten any", "line 2: there is no remark `# NAME` right before the call"),
            (f"{TEXT}# status\nlisten any", "line 15: the name 'status' is there twice"),
            ("# a\nput 1 00", f"line 2: 'put' is {forms}"), ("# a\n call 0 get 1", f"line 2: '' is {forms}"),
            ("# a\nlisten any", "line 2: listen has 7 words behind it, and not 1"),
            *((f"# a\n{CALLS[name].replace(old, new)}", f"line 2: '{new}' is no word that {verb} can have there")
              for name, verb, old, new in [
                  ("status", "publish", "5002", "05002"), ("status", "publish", "100000", "4294967296"),
                  ("status", "publish", "3", "256"), ("status", "publish", "10.0.0.2:17224", "10.0.0.2"),
                  ("status_2", "subscribe", "10.0.0.4", "10.0.0.04"), ("status_2", "subscribe", "keep", "hold"),
                  ("2-pull!", "openpull", "10.0.0.7", "host"), ("any", "listen", "any", "Any"),
                  ("any", "listen", "646f6f72", "646F"), ("any", "listen", "646f6f72", "00")]),
        ]:
            with self.subTest(text):
                self.path.write_text(text)
                with self.assertRaises(ConfigFault) as caught:
                    slot.declare(self.path)
                self.assertEqual(str(caught.exception), f"{self.path}: {fault}")
        self.path.unlink()
        self.assertRaises(FileNotFoundError, slot.declare, self.path)
        self.assertRaises(TypeError, slot.declare, 0)
        self.assertEqual(self.calls(), [])
