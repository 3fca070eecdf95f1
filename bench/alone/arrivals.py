"""Datagrams by chance: telegrams that the node sent, telegrams for what it has, strangers', broken ones."""
from __future__ import annotations

import struct
import zlib
from collections import deque
from typing import Any

from .beside import Beside
from .draws import OWN, Draws, words
from .telegrams import LAYOUTS, Data, Message, write_md, write_pd
from .texts import Pair, place_text

# A datagram's protocol and bytes, its source, and the address that it came to.
Came = tuple[str, bytes, Pair, int]

# How far behind the latest telegram a next one may be.
BEHIND = (-1, -1, -1, -2, 0, 1, 14, 15, 16, 17, 2**31)


class Arrivals:
    """Makes lines of datagrams that come in."""

    def __init__(self, draws: Draws, beside: Beside) -> None:
        self.draws, self.beside = draws, beside
        # Of each protocol the latest telegrams that were sent, and of any that came in.
        self.sent: deque[tuple[str, bytes]] = deque(maxlen=24)
        self.came: deque[str] = deque(maxlen=12)

    def note(self, line: str) -> None:
        """Keeps the telegram of a line that sends one, seldom if it is long."""
        parts = line.split(" ")
        if parts[1] == "send" and (len(line) < 4000 or self.draws.one_in(8)):
            self.sent.append((parts[2], bytes.fromhex(parts[4])))

    def line(self) -> str:
        draws = self.draws
        if draws.one_in(8) and self.came:
            return draws.of(*self.came)
        share = draws.random.randrange(20)
        if share < 4 and self.sent:
            came: Came = (*draws.of(*self.sent), draws.peer(), draws.destination() or OWN)
        elif share < 17:
            came = self.meant()
        else:
            came = self.stranger()
        protocol, datagram, source, destination = came
        if draws.one_in(15):
            datagram = self.broken(protocol, datagram)
        if draws.one_in(100):
            protocol = "md" if protocol == "pd" else "pd"
        line = words(protocol, place_text(source), place_text((destination, draws.of(17224, 17225))), datagram)
        if len(datagram) < 2000:
            self.came.append(line)
        return line

    def meant(self) -> Came:
        """A telegram for an object, nearly always."""
        objects = [it for slot in self.beside.slots for it in slot.objects.values()]
        if not objects:
            return self.stranger()
        callers = [it for it in objects if it.kind == "caller"]
        awaiting = [it for it in objects if it.kind == "replier" and not it.asked]
        it = self.draws.of(*objects)
        # Some callers have to reach eight answers, and some repliers their confirmation.
        if callers and self.draws.one_in(8):
            it = max(callers, key=lambda caller: len(caller.answers))
        elif awaiting and self.draws.one_in(6):
            it = self.draws.of(*awaiting)
        came: Came = getattr(self, it.kind)(it)
        return came

    def topo(self, it: Any) -> Pair:
        topo: Pair = self.draws.counts() if self.draws.one_in(6) else it.topo
        return topo

    def source(self, it: Any) -> int:
        """An address that a filter lets in, or seldom any."""
        low, high = it.source
        if high == 0 or self.draws.one_in(8):
            return self.draws.address()
        return self.draws.random.randrange(low, high + 1)

    def dest(self, it: Any) -> int:
        return self.draws.destination() or it.dest or OWN

    def subscription(self, it: Any) -> Came:
        draws = self.draws
        payload = draws.near_value(self.beside.settings.datasets, it.dataset)
        address, kind, counter = it.latest or (self.source(it), "Pd", draws.of(0, 7, 2**32 - 1))
        if draws.one_in(6):
            address, kind = self.source(it), draws.of("Pd", "Pp")
        data = Data(kind, it.com_id, payload, (counter - draws.of(*BEHIND)) % 2**32, self.topo(it))
        return "pd", write_pd(data), (address, draws.of(17224, 5000)), self.dest(it)

    def publisher(self, it: Any) -> Came:
        draws = self.draws
        asked = draws.of((it.com_id, 0), (draws.com_id(), it.com_id))
        data = Data("Pr", asked[0], draws.data(3), 0, self.topo(it), asked[1], draws.of(0, draws.address()))
        return "pd", write_pd(data), draws.place(), OWN

    def requester(self, it: Any) -> Came:
        """The reply that it asks for."""
        draws = self.draws
        com_id = it.reply_com_id or it.com_id
        data = Data(draws.of("Pp", "Pd", "Pe"), com_id, draws.data(), draws.random.randrange(4), self.topo(it))
        return "pd", write_pd(data), draws.place(), OWN

    def listener(self, it: Any) -> Came:
        draws = self.draws
        com_id = draws.com_id() if it.com_id is None else it.com_id
        uri = draws.uri() if draws.one_in(6) else it.uri
        session, time = draws.session(), draws.of(0, 1, draws.span())
        topo = draws.counts() if draws.one_in(3) else it.topo
        more = draws.random.randrange(3), topo, draws.random.randrange(2), session, time, draws.uri(), uri
        message = Message(draws.of("Mn", "Mr", "Mr"), com_id, draws.data(), *more)
        return "md", write_md(message), (self.source(it), draws.of(17225, 5000)), self.dest(it)

    def caller(self, it: Any) -> Came:
        draws = self.draws
        more = draws.random.randrange(2), self.topo(it), draws.status(), it.session, draws.of(0, 1, draws.span())
        message = Message(draws.of("Mp", "Mq", "Mq", "Me"), draws.com_id(), draws.data(), *more)
        return "md", write_md(message), draws.peer(), OWN

    def replier(self, it: Any) -> Came:
        draws = self.draws
        source = draws.peer() if draws.one_in(6) else (it.peer[0], draws.of(it.peer[1], 5000))
        etb, op_trn = it.topo
        topo = (etb and 15 - etb, op_trn and 15 - op_trn) if draws.one_in(4) else self.topo(it)
        message = Message("Mc", draws.com_id(), draws.data(3), 0, topo, draws.status(), it.session)
        return "md", write_md(message), source, OWN

    def stranger(self) -> Came:
        """A telegram of anything."""
        draws = self.draws
        if draws.one_in(2):
            ends = draws.random.getrandbits(32), draws.counts(), draws.com_id(), draws.address()
            datagram = write_pd(Data(draws.of(*LAYOUTS["pd"].kinds), draws.com_id(), draws.data(), *ends))
            return "pd", datagram, draws.place(), draws.address()
        more = draws.random.getrandbits(32), draws.counts(), draws.status(), draws.session(), draws.span()
        uris = draws.uri(), draws.uri()
        datagram = write_md(Message(draws.of(*LAYOUTS["md"].kinds), draws.com_id(), draws.long(60_000), *more, *uris))
        return "md", datagram, draws.peer(), draws.address()

    def broken(self, protocol: str, datagram: bytes) -> bytes:
        """A telegram that was damaged, or that another version wrote."""
        draws, layout = self.draws, LAYOUTS[protocol]
        end = layout.head - 4
        way = draws.random.randrange(8)
        if way == 0:
            return datagram[:draws.random.randrange(len(datagram))]
        if way == 1:
            room = max(layout.most - len(datagram), 0)
            return datagram + bytes(draws.of(1, 4, room, room + 1, room + 1))
        front = bytearray(datagram[:end])
        if way == 2:
            front[draws.random.randrange(end)] ^= 1 << draws.random.randrange(8)
            return bytes(front) + datagram[end:]
        length = len(datagram) - layout.head
        if way == 3:
            front[4:6] = draws.of(b"\1\7", b"\2\0", b"\0\0")
        elif way == 4:
            front[6:8] = draws.of(b"Pq", b"Mx", b"Pd", b"Mn")
        elif way == 5:
            front[20:24] = struct.pack(">I", draws.of(length, length + 1, max(length - 1, 0), 2**32 - 1))
        elif protocol == "pd":
            # The reserved field, and the reply fields.
            front[24:36] = draws.random.randbytes(12)
        else:
            # Behind the end of a URI.
            front[79] = front[111] = 1
            front[78] = front[110] = 0
        return bytes(front) + struct.pack("<I", zlib.crc32(front)) + datagram[layout.head:]
