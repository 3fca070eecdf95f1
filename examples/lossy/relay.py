"""A network between two nodes that loses, doubles and holds back datagrams.

It stands for each node at an address of its own: what comes in at the address of the one goes on to the other, or
doesn't, and comes from the address that stands for its sender. So neither node knows of it.
"""
import heapq
import random
import selectors
import socket

# One telegram in so many is lost, one comes twice, one is held back, so that later ones come before it.
LOST, DOUBLED, HELD = 4, 4, 3
# The longest that one is held back, in seconds.
LONGEST = 0.15


class Relay:
    """The ways between two nodes, given as pairs of the address that stands for a node and the node's own."""

    def __init__(self, seed, pair, other, ports):
        self.chance = random.Random(seed)
        self.waiting = []  # what is on its way: when it is due, a number, and how it goes on
        self.came = self.lost = self.doubled = self.held = 0
        self.selector = selectors.DefaultSelector()
        for port in ports:
            ends = [self.bound(address, port) for address, _ in (pair, other)]
            # What is sent to the address that stands for a node goes to that node, from the other one's.
            self.selector.register(ends[0], selectors.EVENT_READ, (ends[1], (pair[1], port)))
            self.selector.register(ends[1], selectors.EVENT_READ, (ends[0], (other[1], port)))

    @staticmethod
    def bound(address, port):
        """A socket at that address and port."""
        end = socket.socket(socket.AF_INET, socket.SOCK_DGRAM)
        end.bind((address, port))
        end.setblocking(False)
        return end

    def put(self, now, way, data):
        """Lets a datagram go on now, or later."""
        due = now
        if self.chance.randrange(HELD) == 0:
            self.held += 1
            due += self.chance.uniform(0, LONGEST)
        heapq.heappush(self.waiting, (due, self.came, self.chance.random(), way, data))

    def turn(self, now):
        """Takes all that has come, and sends what is due."""
        for key, _ in self.selector.select(0):
            data = key.fileobj.recv(65536)
            self.came += 1
            if self.chance.randrange(LOST) == 0:
                self.lost += 1
                continue
            self.put(now, key.data, data)
            if self.chance.randrange(DOUBLED) == 0:
                self.doubled += 1
                self.put(now, key.data, data)
        while self.waiting and self.waiting[0][0] <= now:
            *_, (end, to), data = heapq.heappop(self.waiting)
            end.sendto(data, to)
