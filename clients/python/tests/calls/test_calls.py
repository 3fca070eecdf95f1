"""What each call says, and which arguments no call takes: at a port that is made up, without a daemon."""
from __future__ import annotations

import random
import socket
import sys
import tempfile
import uuid
from collections.abc import Callable
from typing import Any

import testing
from made_node import ADDRESS, ANSWERS, FIRST, MARKS, PATIENCE, Case
from testing import SEED
from trdp_slot import (ConfigFault, DoesNotFit, NoAnswer, Nobody, Operator, OtherSlot, Refused, Silent, Slot, SlotError,
                       WrongAnswer)
from trdp_slot._words import uri_of


class Calls(Case):
    """The lines of all calls are those of docs/SCRIPT.md."""

    def check_lines(self, calls: list[tuple[str, Callable[[], object], str]]) -> None:
        """Makes each call, which has that answer, and compares the line that it sends."""
        self.say = lambda line: [ANSWERS[line]] if line in ANSWERS else [f"0 {self.told}"]
        for told, call, line in calls:
            with self.subTest(line):
                self.told = told
                call()
                self.assertEqual(self.calls()[-1], line)

    def test_lines_of_process_data(self) -> None:
        slot = self.client()
        self.check_lines([
            ("handle 1", lambda: slot.publish(100, "10.0.0.2:17224", dataset=1001, cycle_us=100_000, group=3),
             "publish 100 1001 100000 3 0 0 10.0.0.2:17224"),
            ("done", lambda: slot.put(1, bytes.fromhex("0200010002")), "put 1 0200010002"),
            ("done", lambda: slot.put(1, b""), "put 1 -"),
            ("done", lambda: slot.unpublish(1), "unpublish 1"),
            ("handle 2", lambda: slot.subscribe(100, dataset=1001, low="10.0.0.2", high="10.0.0.4", dest="10.0.0.1",
                                                time_us=500_000),
             "subscribe 100 1001 10.0.0.2 10.0.0.4 10.0.0.1 0 0 500000 zero"),
            ("handle 3", lambda: slot.subscribe(100, etb=17, op_trn=4, behaviour="keep"),
             "subscribe 100 0 0.0.0.0 0.0.0.0 0.0.0.0 17 4 0 keep"),
            ("value Valid 7 0200010002", lambda: slot.get(2), "get 2"),
            ("done", lambda: slot.unsubscribe(2), "unsubscribe 2"),
        ])

    def test_lines_of_pulls(self) -> None:
        slot = self.client()
        self.check_lines([
            ("handle 1", lambda: slot.openpull(100, "10.0.0.3:17224", reply_com_id=200, reply_address="10.0.0.7"),
             "openpull 100 200 10.0.0.7 0 0 10.0.0.3:17224"),
            ("done", lambda: slot.pull(1), "pull 1"),
            ("done", lambda: slot.closepull(1), "closepull 1"),
        ])

    def test_lines_of_listeners_and_callers(self) -> None:
        slot = self.client()
        self.check_lines([
            ("handle 1", lambda: slot.listen(300, low="10.0.0.2", high="10.0.0.4", dest="10.0.0.1", uri="car"),
             "listen 300 10.0.0.2 10.0.0.4 10.0.0.1 636172 0 0"),
            ("handle 2", lambda: slot.listen(None), "listen any 0.0.0.0 0.0.0.0 0.0.0.0 - 0 0"),
            ("done", lambda: slot.unlisten(1), "unlisten 1"),
            ("done", lambda: slot.notify(300, "10.0.0.2:17225", b"\x0d", source_uri="door", dest_uri="car"),
             "notify 300 646f6f72 636172 0 0 10.0.0.2:17225 0d"),
            ("handle 3", lambda: slot.request(300, "10.0.0.2:17225", b"\x0d", session=uuid.UUID(int=1), expected=2,
                                              time_us=1_000_000, source_uri="door", dest_uri="car"),
             "request 300 00000000-0000-0000-0000-000000000001 2 1000000 646f6f72 636172 0 0 10.0.0.2:17225 0d"),
            ("handle 4", lambda: slot.request(300, "10.0.0.2:17225", session=uuid.UUID(int=2), expected=0, retries=2,
                                              time_us=1000),
             "request 300 00000000-0000-0000-0000-000000000002 0 1000 - - 0 0 10.0.0.2:17225 - 2"),
        ])

    def test_lines_of_repliers_and_ends(self) -> None:
        slot = self.client()
        self.check_lines([
            ("done", lambda: slot.reply(4, 301, b"\x0c"), "reply 4 301 0 0c"),
            ("done", lambda: slot.query(4, 301, b"\x0c", time_us=500_000), "query 4 301 0 500000 0c"),
            ("done", lambda: slot.replyerror(4, 301, -5), "replyerror 4 301 -5"),
            ("done", lambda: slot.confirm(3, "10.0.0.3:17225"), "confirm 3 10.0.0.3:17225 0"),
            ("done", lambda: slot.abort(3), "abort 3"),
            ("done", lambda: slot.reset(), "reset"),
        ])

    def test_what_cant_stand_in_a_line_is_not_sent(self) -> None:
        slot = self.client()
        odd: dict[str, Any] = {"cycle_us": 1.5}
        calls: list[Callable[[], object]] = [
            lambda: slot.publish(-1, "10.0.0.2:17224"), lambda: slot.publish(1 << 32, "10.0.0.2:17224"),
            lambda: slot.publish(100, "10.0.0.2"), lambda: slot.publish(100, "10.0.0.02:17224"),
            lambda: slot.publish(100, "10.0.0.2:65536"), lambda: slot.publish(100, "10.0.0.2:17224", group=256),
            lambda: slot.publish(100, "10.0.0.2:17224", **odd), lambda: slot.subscribe(100, low="10.0.0.256"),
            lambda: slot.subscribe(100, behaviour="hold"), lambda: slot.put(-1, b""), lambda: slot.put(1, [1]),
            lambda: slot.listen(100, uri="x" * 33), lambda: slot.listen(100, uri="a\0b"),
            lambda: slot.request(1, "10.0.0.2:17225", retries=256), lambda: slot.replyerror(1, 1, -(1 << 31) - 1),
            lambda: slot.notify(1, "10.0.0.2:17225", bytes(40_000)),
        ]
        for call in calls:
            with self.assertRaises(ValueError):
                call()
        self.assertEqual(self.port.lines, [])
        self.assertRaises(ValueError, Slot, ADDRESS, 1, tries=0)
        self.assertRaises(ValueError, Slot, ADDRESS, 1, answer_us=0)

    def test_a_uri_of_any_bytes_comes_and_goes(self) -> None:
        slot = self.client()
        slot.notify(1, "10.0.0.2:17225", source_uri=uri_of("ff41"))
        self.assertEqual(self.calls()[-1].split()[2], "ff41")


class Traps(Case):
    """Arguments that can't be meant, and ports that aren't the slot's."""

    def free_port(self) -> int:
        """A port that no one has."""
        with socket.socket(socket.AF_INET, socket.SOCK_DGRAM) as free:
            free.bind((ADDRESS, 0))
            return int(free.getsockname()[1])

    def check_traps(self, traps: list[tuple[Callable[[], object], type[Exception], str]]) -> None:
        """Each call raises an exception of that kind, whose text has that sentence, and nothing is sent."""
        for call, kind, text in traps:
            with self.assertRaises(kind) as caught:
                call()
            self.assertIn(text, str(caught.exception))
        self.assertEqual(self.port.lines, [])

    def test_slots_that_cant_be_meant(self) -> None:
        make: Any = Slot
        self.check_traps([
            (lambda: make("localhost", 18000), ValueError, "'localhost' is no address as 127.0.0.1, and 18000 no slot"),
            (lambda: make("node.toml", 16), ValueError, "and 16 no slot of a configuration, 0 to 15"),
            (lambda: make("node.toml", -1), ValueError, "and -1 no slot"),
            (lambda: make("node.toml", None), ValueError, "None no slot"),
            (lambda: make("gone.toml", 0), FileNotFoundError, "gone.toml"),
            (lambda: make("", 0), FileNotFoundError, "''"),
            (lambda: make("127.0.0.1", 99999), ValueError, "port is 99999, and no whole number of 1 to 65535"),
            (lambda: make("255.255.255.255", 1), OSError, "'255.255.255.255:1'"),
            (lambda: make("127.0.0.1", 0), ValueError, "port is 0"),
            (lambda: make("127.0.0.1", "18000"), ValueError, "port is '18000'"),
            (lambda: make(None, 0), TypeError, "config is None, and no path or address"),
            (lambda: make(5, 18000), TypeError, "config is 5"),
            (lambda: make(ADDRESS, 1, tries="x"), ValueError, "tries is 'x'"),
            (lambda: make(ADDRESS, 1, answer_us=1.5), ValueError, "answer_us is 1.5"),
            (lambda: make(ADDRESS, 1, datasets="node.toml"), TypeError, "datasets is 'node.toml', and no Datasets"),
            (lambda: make(ADDRESS, 1, number=16), ValueError, "number is 16, and no whole number of 0 to 15"),
        ])

    def test_handles_that_cant_be_meant(self) -> None:
        it: Any = self.client()
        self.check_traps([
            (lambda: it.get(None), TypeError, "handle is None, and no Handle or number"),
            (lambda: it.put("1", b""), TypeError, "handle is '1'"),
            (lambda: it.unpublish(None), TypeError, "handle is None"),
            (lambda: it.unlisten([]), TypeError, "handle is []"),
            (lambda: it.reply(None, 1), TypeError, "handle is None"),
            (lambda: it.abort(1 << 32), ValueError, "handle is 4294967296"),
        ])

    def test_arguments_of_calls_that_cant_be_meant(self) -> None:
        it: Any = self.client()
        self.check_traps([
            (lambda: it.get(1, tries=0), ValueError, "tries is 0"),
            (lambda: it.get(1, tries="x"), ValueError, "tries is 'x'"),
            (lambda: it.publish("100", "10.0.0.2:1"), ValueError, "com_id is '100'"),
            (lambda: it.publish(100, None), ValueError, "place is None, and no place"),
            (lambda: it.publish(100, "localhost:17224"), ValueError, "place is 'localhost:17224', and no place"),
            (lambda: it.subscribe(1, low=5), ValueError, "low is 5, and no address"),
            (lambda: it.subscribe(1, behaviour=None), ValueError, "behaviour is None"),
            (lambda: it.listen(1, uri=None), TypeError, "uri is None, and no text"),
            (lambda: it.notify(1, "10.0.0.2:1", [1], dataset="x"), ValueError, "dataset is 'x'"),
            (lambda: it.notify(1, "10.0.0.2:1", [1], dataset=[]), ValueError, "dataset is []"),
            (lambda: it.request(1, "10.0.0.2:1", session="x"), ValueError, "session is 'x', and no UUID"),
            (lambda: it.request(1, "10.0.0.2:1", session=5), ValueError, "session is 5, and no UUID"),
        ])

    def test_arguments_of_indications_that_cant_be_meant(self) -> None:
        it: Any = self.client()
        self.check_traps([
            (lambda: it.on("Silent", print), TypeError, "kind is 'Silent'"),
            (lambda: it.on(Silent, None), TypeError, "callback is None"),
            (lambda: it.next_indication("x"), ValueError, "time_us is 'x'"),
            (lambda: it.run(-1), ValueError, "time_us is -1"),
            (lambda: it.read_line(float("nan")), ValueError, "time_us is nan"),
            (lambda: it.send_line(None), TypeError, "line is None"),
        ])

    def test_operators_that_cant_be_meant(self) -> None:
        operator: Any = Operator
        self.check_traps([
            (lambda: operator("localhost", 18100), ValueError, "address is 'localhost'"),
            (lambda: operator(ADDRESS, 99999), ValueError, "port is 99999"),
            (lambda: operator(ADDRESS, 1, tries=0), ValueError, "tries is 0"),
        ])

    def test_the_key_that_is_wrong(self) -> None:
        node, slot = '[node]\naddress = "127.0.0.1"\n', "[[slot]]\ncontrol_port = 18000\n"
        for text, number, fault in [
            ("", 0, "there is no table node"), ("[node]\n" + slot, 0, "node: address is missing"),
            ("[node]\naddress = 'localhost'\n" + slot, 0, "node: address is 'localhost', and no address"),
            ("[node]\naddress = 5\n" + slot, 0, "node: address is 5, and no address"),
            (node + "control_address = ''\n" + slot, 0, "node: control_address is '', and no address"),
            (node + "spare_control_ports = 5\n" + slot, 1, "node: spare_control_ports is 5, and no list of ports"),
            (node + "spare_control_ports = [0, 'x']\n" + slot, 2,
             "node: spare_control_ports[1] is 'x', and no whole number"),
            (node + "spare_control_ports = [70000]\n" + slot, 1, "node: spare_control_ports[0] is 70000"),
            (node + "[[slot]]\ncontrol_port = []\n", 0,
             "slot 0: control_port is [], and no whole number of 0 to 65535"),
            (node + slot + "[[slot]]\ncontrol_port = 70000\n", 1, "slot 1: control_port is 70000"),
            (node + "[slot]\ncontrol_port = 18000\n", 0,
             "slot is a table, and no array of tables: [[slot]] begins each"),
            (node + "[[slot]]\n", 0, "slot 0 has no control port"), (node + slot, 1, "slot 1 has no control port"),
            (node + slot + "[[dataset]]\nid = 40\n", 0, "dataset 40 has 0 elements"),
            ("slot = 5\n" + node, 0, "slot is no array"),
        ]:
            with tempfile.NamedTemporaryFile("w", suffix=".toml") as file:
                file.write(text)
                file.flush()
                with self.assertRaises(ConfigFault) as caught:
                    Slot(file.name, number)
                self.assertIn(fault, str(caught.exception), text)

    def test_another_slot_answers(self) -> None:
        answers = iter(["7 refused NoHandle"] * 3 + ["0 refused NoHandle"] * 2
                       + ["7 value Valid 1 0b", "7 done", "7 refused NoHandle"]
                       + ["7 refused NoHandle", "7 handle 4", "7 value x"])
        self.say = lambda line: [MARKS[line]] if line in MARKS else [next(answers)] if line != "#" else []
        slot = self.client(number=0)
        calls: list[Callable[[], object]] = [lambda: slot.get(1), lambda: slot.put(1, b""), lambda: slot.unpublish(1)]
        for call in calls:
            with self.assertRaises(OtherSlot) as caught:
                call()
        said = f"{ADDRESS}:{self.port.number} is the port of another slot than slot 0: it says '7 refused NoHandle'"
        self.assertEqual(str(caught.exception), said)
        self.assertEqual(caught.exception.line, "7 refused NoHandle")
        self.assertEqual(self.calls(), [])
        self.assertRaises(Refused, slot.get, 1)
        # It is another slot's from here on, as of a daemon that has another configuration.
        for call in calls:
            self.assertRaises(OtherSlot, call)
        self.assertEqual(self.calls(), ["get 1", "get 1", "put 1 -", "unpublish 1"])
        # At an address it is the slot that answers first.
        slot = self.client()
        self.assertEqual(slot.publish(100, "10.0.0.2:17224").number, 4)
        self.assertRaises(WrongAnswer, slot.get, 4)
        self.port.say("3 silent 4")
        self.assertRaises(OtherSlot, slot.next_indication, PATIENCE)

    def test_answers_that_no_trdpd_gives(self) -> None:
        told: str | None = None
        self.say = lambda line: [MARKS[line]] if line in MARKS else [] if told is None else [told]
        self.say, say = self.node.answer, self.say
        slot, new = self.asked(tries=1), self.client(tries=1)
        self.say = say
        calls: list[Callable[[], object]] = [
            lambda: new.put(1, b""),
            lambda: slot.get(1), lambda: slot.publish(1, "10.0.0.2:17224"), lambda: slot.put(1, b"")]
        for told in ("0 refused", "0 refused x", "0 refused No Handle", "0 handle", "0 handle x", "0 handle -1",
                     "0 value", "0 value Valid", "0 value Valid x 00", "0 value Valid 1 0", "0 value Valid 1 xy",
                     "0 value Valid 1 00 00", "0 value Old 1 00", "0 done 1", "0 silent", "0 silent x",
                     "0 asked 1 2 3 4 5 6 7 8", "0 replied 1 x Mp 0 1 -", "0 closed 1",
                     "HTTP/1.1 400", "get 1", "", "0", "0 jumped", "00 done", "ok", "\ufffd", "x" * 500, "line fault"):
            for call in calls:
                with self.assertRaises(WrongAnswer) as caught:
                    call()
                self.assertEqual(caught.exception.line, told.encode().decode("ascii", "replace"))
                self.assertIn(f"{ADDRESS}:{self.port.number} answers what no trdpd answers: ", str(caught.exception))
        told = None
        with self.assertRaisesRegex(NoAnswer, "^no answer, at 1 tries of 10000000 microseconds: get 1$"):
            slot.get(1)
        with self.assertRaisesRegex(NoAnswer, "^no answer, at 1 tries of 10000000 microseconds: get 0$"):
            new.put(1, b"")
        told = "0 handle 7"
        with self.assertRaisesRegex(NoAnswer, "^no answer, but '0 handle 7', at 1 tries"):
            slot.get(1)

    def test_a_line_by_chance_is_taken_or_told(self) -> None:
        print(f"answers by chance: seed {SEED}", file=sys.stderr)
        chance = random.Random(SEED)
        words = ["0", "1", "7", "-1", "4294967296", "handle", "done", "value", "refused", "silent", "alive", "notified",
                 "asked", "overrun", "replied", "confirmed", "closed", "Valid", "NoHandle", "10.0.0.2:17225", "-", "00",
                 "0", "Mp", str(FIRST), "line", "fault", "", "\xff"]
        slot = self.client(number=0)
        for _ in range(20_000):
            line = " ".join([chance.choice(["0", "0", "0", "7", "x"]), *chance.choices(words, k=chance.randrange(9))])
            try:
                slot._exchange.keep(line)
            except (OtherSlot, WrongAnswer) as told:
                self.assertEqual(told.line, line)

    def test_nobody_is_there(self) -> None:
        gone = testing.Port(ADDRESS, self.node.answer)
        number = gone.number
        with Slot.look(ADDRESS, number, tries=2, answer_us=PATIENCE) as slot:
            self.assertRaises(Refused, slot.get, 1)
            gone.close()
            calls: list[tuple[Callable[[], object], str]] = [
                (lambda: slot.get(1), ": get 1"), (slot.sync, ""), (slot.check, ""),
                (lambda: slot.listen(1), ": listen 1 0.0.0.0 0.0.0.0 0.0.0.0 - 0 0")]
            for call, behind in calls:
                with self.assertRaises(Nobody) as caught:
                    call()
                self.assertEqual(str(caught.exception), f"nobody is at {ADDRESS}:{number}{behind}")
            slot.send_line("get 1")
            self.assertRaises(Nobody, slot.read_line, PATIENCE)
        number = self.free_port()
        with Slot(ADDRESS, number, tries=2, answer_us=PATIENCE) as slot:
            with self.assertRaisesRegex(Nobody, f"^nobody is at {ADDRESS}:{number}: get 0$"):
                slot.listen(1)
        with self.assertRaisesRegex(Nobody, f"^nobody is at {ADDRESS}:{number}: role 1 leader$"):
            Operator(ADDRESS, number).role(1, True)
        # Somebody comes, and says nothing.
        silent = testing.Port(ADDRESS, lambda _: [])
        self.addCleanup(silent.close)
        with Slot.look(ADDRESS, silent.number, tries=1, answer_us=10_000) as slot:
            with self.assertRaises(NoAnswer) as silence:
                slot.get(1)
            self.assertNotIsInstance(silence.exception, Nobody)

    def test_the_operator_is_answered_by_something_else(self) -> None:
        operator = Operator(ADDRESS, self.port.number, tries=1, answer_us=PATIENCE)
        for told, kind in [("", WrongAnswer), (" ", WrongAnswer), ("0 done", WrongAnswer), ("okay", WrongAnswer),
                           ("ok", None),
                           ("fault NoGroup", Refused), ("line fault Unknown", Refused)]:
            self.say = lambda _: [told]
            if kind is None:
                operator.role(1, True)
            else:
                self.assertRaises(kind, operator.role, 1, True)
            self.assertRaises(kind or WrongAnswer, operator.totals)
            self.assertRaises(kind or WrongAnswer, operator.slots)

    def test_what_an_operator_asks(self) -> None:
        operator = Operator(ADDRESS, self.port.number, tries=1, answer_us=PATIENCE)
        self.say = lambda _: ["taken 9 offered 8 lost 7 unread 6 memory 5"]
        self.assertEqual(operator.totals(), (9, 8, 7, 6, 5))
        self.assertRaises(WrongAnswer, operator.slots)
        self.say = lambda _: ["0 1/4 2/5 0/0 256/256 0/1 3/3 1500\n1 0/1 0/0 0/0 0/0 0/0 0/0 -"]
        self.assertEqual(operator.slots(), [(0, (1, 2, 0, 256, 0, 3), (4, 5, 0, 256, 1, 3), 1500),
                                            (1, (0, 0, 0, 0, 0, 0), (1, 0, 0, 0, 0, 0), None)])
        self.assertRaises(WrongAnswer, operator.totals)

    def test_one_class_is_the_base_of_all(self) -> None:
        for kind, base in [(Refused, Exception), (NoAnswer, TimeoutError), (Nobody, ConnectionRefusedError),
                           (OtherSlot, Exception),
                           (WrongAnswer, Exception), (ConfigFault, ValueError), (DoesNotFit, ValueError)]:
            self.assertTrue(issubclass(kind, SlotError) and issubclass(kind, base), kind)
